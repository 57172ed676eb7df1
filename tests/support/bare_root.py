"""A bare root folder of Debian, without this repository and its toolchain."""
import os
import re
import shutil
import subprocess
from collections import namedtuple

# What the folder has, with all that these depend on.
PACKAGES = [
    *["base-files", "bash", "coreutils", "dash", "diffutils", "dpkg", "findutils", "grep", "gzip", "libc-bin", "sed"],
    *["tar", "gcc", "libc6-dev", "make", "cmake", "pkg-config"],
]
MERGED = ["bin", "lib", "lib32", "lib64", "libx32", "sbin"]
LEFT_OUT = re.compile(r"/usr/share/(doc|man|info|locale|lintian|bash-completion)/.")
PATH = "/usr/sbin:/usr/bin:/sbin:/bin"
SECONDS = 600  # that a command may take
COPY_SECONDS = 60  # that copying the packages may take
FETCH_SECONDS = 3600  # that fetching them may take

# An installed package: its name with the architecture, each set of packages of which one has to be there, what it
# stands for, and its stanza in the list of packages.
Package = namedtuple("Package", "name needs provides")
FIELDS = "${binary:Package}\t${db:Status-Abbrev}\t${Pre-Depends}, ${Depends}\t${Provides}\n"


class Missing(Exception):
    """What this machine lacks."""


def run(words, **how):
    return subprocess.run(words, **{"stdout": subprocess.PIPE, "stderr": subprocess.STDOUT, "timeout": SECONDS, **how})


def names_in(text):
    """The names of a list of packages, without versions."""
    return [re.sub(r"[ :(].*", "", name.strip()) for name in text.split(",") if name.strip()]


def installed_packages():
    """The packages that are installed here, by their names without an architecture."""
    listed = run(["dpkg-query", "-W", "-f", FIELDS]).stdout.decode()
    found = {}
    for line in listed.splitlines():
        name, status, needs, provides = line.split("\t")
        if status.startswith("ii"):
            sets = [[names_in(one)[0] for one in part.split("|")] for part in needs.split(",") if part.strip()]
            found[name.partition(":")[0]] = Package(name, sets, names_in(provides))
    return found


def with_all_below(installed, names):
    """The packages of these names and those that they depend on."""
    standing = {stands: name for name, package in installed.items() for stands in package.provides}
    found, left = {}, list(names)
    while left:
        name = left.pop()
        name = name if name in installed else standing.get(name)
        if name is None or name in found:
            continue
        found[name] = installed[name]
        for one_of in installed[name].needs:
            left += [one for one in one_of if one in installed or one in standing][:1]
    absent = [name for name in names if name not in found and standing.get(name) not in found]
    if absent:
        raise Missing(f"the packages {', '.join(absent)}")
    return [package.name for package in found.values()]


def alternatives(paths):
    """The links of alternatives in /usr/bin that lead to these paths, and what is between."""
    for name in os.listdir("/usr/bin"):
        link = os.path.join("/usr/bin", name)
        between = os.readlink(link) if os.path.islink(link) else ""
        if between.startswith("/etc/alternatives/") and os.path.islink(between) and os.readlink(between) in paths:
            yield from (link, between)


def copy_files(packages, root):
    """Copies the files of installed packages, but documents, and the links of alternatives."""
    listed = run(["dpkg-query", "-L", *packages]).stdout.decode().splitlines()
    paths = {path for path in listed if path.startswith("/") and not LEFT_OUT.match(path) and os.path.lexists(path)}
    names = "\0".join(path.lstrip("/") or "." for path in sorted({*paths, *alternatives(paths)})).encode()
    words = ["tar", "-C", "/", "--null", "--no-recursion", "-T", "-", "-cf", "-"]
    packed = subprocess.Popen(words, stdin=subprocess.PIPE, stdout=subprocess.PIPE, stderr=subprocess.DEVNULL)
    unpacked = subprocess.Popen(["tar", "-C", root, "--keep-directory-symlink", "-xpf", "-"], stdin=packed.stdout)
    packed.stdin.write(names)
    packed.stdin.close()
    try:
        status = unpacked.wait(COPY_SECONDS)
    except subprocess.TimeoutExpired as late:
        unpacked.kill()
        raise Missing(f"packages that are copied in {COPY_SECONDS} seconds") from late
    finally:
        packed.kill()
        packed.wait()
    if status != 0:
        raise Missing("a tar that copies the files of packages")


def write_list(packages, root):
    """The list of installed packages, as dpkg keeps it, with the files of each."""
    kept = os.path.join(root, "var/lib/dpkg")
    for folder in ("info", "updates", "triggers"):
        os.makedirs(os.path.join(kept, folder), exist_ok=True)
    stanzas = run(["dpkg-query", "-s", *packages]).stdout
    with open(os.path.join(kept, "status"), "wb") as file:
        file.write(stanzas + b"\n")
    for name in os.listdir("/var/lib/dpkg/info"):
        stem, ending = os.path.splitext(name)
        if ending in (".list", ".md5sums") and stem in packages:
            shutil.copy(os.path.join("/var/lib/dpkg/info", name), os.path.join(kept, "info", name))


def copied(root):
    """Makes the folder of packages that are installed on this machine."""
    for tool in ("dpkg-query", "tar"):
        if not shutil.which(tool):
            raise Missing(tool)
    packages = with_all_below(installed_packages(), PACKAGES)
    for name in MERGED:
        if os.path.islink(f"/{name}"):
            os.makedirs(os.path.join(root, os.readlink(f"/{name}")), exist_ok=True)
            os.symlink(os.readlink(f"/{name}"), os.path.join(root, name))
    copy_files(packages, root)
    write_list(packages, root)
    for folder in ("tmp", "dev", "root", "var/log", "var/cache/ldconfig"):
        os.makedirs(os.path.join(root, folder), exist_ok=True)
    with open(os.path.join(root, "etc/passwd"), "w") as file:
        file.write("root:x:0:0:root:/root:/bin/sh\n")
    with open(os.path.join(root, "etc/group"), "w") as file:
        file.write("root:x:0:\n")
    finish(root)


def downloaded(root):
    """Makes the folder of packages that mmdebstrap fetches."""
    if not shutil.which("mmdebstrap"):
        raise Missing("mmdebstrap")
    with open("/etc/os-release") as file:
        suite = re.search(r"^VERSION_CODENAME=(\w+)", file.read(), re.M)[1]
    words = ["--variant=minbase", f"--include={','.join(PACKAGES)}", "--format=directory", suite, root]
    made = run(["mmdebstrap", *words], timeout=FETCH_SECONDS)
    if made.returncode != 0:
        raise Missing(f"a mirror of Debian ({made.stdout.decode(errors='replace')[-200:]})")


def finish(root):
    """What is no file of a package: the null device, and the list of libraries."""
    try:
        os.mknod(os.path.join(root, "dev/null"), 0o20666, os.makedev(1, 3))
        os.chmod(os.path.join(root, "dev/null"), 0o666)
    except OSError as fault:
        raise Missing(f"the right to make a device ({fault})") from fault
    if inside(root, ["ldconfig"]).returncode != 0:
        raise Missing("the right to run a program in another root folder")


def inside(root, words, folder="/", **how):
    """Runs a command in the folder."""
    script = ["sh", "-c", 'cd "$1" && shift && exec "$@"', "sh", folder, *words]
    return run(["chroot", root, *script], env={"PATH": PATH, "LC_ALL": "C", "HOME": "/root"}, **how)


def files_of(root):
    """Every path of the folder, but what dpkg and ldconfig keep of their own work."""
    found = set()
    for folder, folders, names in os.walk(root):
        inner = os.path.relpath(folder, root)
        if inner in ("var/lib/dpkg", "var/log", "var/cache", "tmp", "root"):
            folders.clear()
            continue
        found.update(os.path.join(inner, name) for name in (*folders, *names))
    return found - {"etc/ld.so.cache"}
