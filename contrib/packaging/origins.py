"""Of what a release is made: the crates of the toolchain that are in it, their licences, and the tools."""

import os
import re
import subprocess
import sys
import zlib

from trees import ROOT, read

# What is built, and the crate that it is built of.
BUILT = {"mctpctl": "mctpctl", "libneedleoat_c.a": "needleoat_c", "libneedleoat_wire_c.a": "needleoat_wire_c"}


def own_crates():
    """The crates of this repository, and what each stands on directly (crates.txt)."""
    crates = {}
    for line in read(ROOT, "crates.txt").decode().splitlines():
        name, colon, names = line.partition("#")[0].partition(":")
        if colon:
            crates[name.split()[0]] = [*names.split(), "std"]
    return crates


def kit_crates_below(kit, crate):
    """The crates of the toolchain that a crate of this repository stands on at any depth."""
    own, found, left = own_crates(), set(), [crate]
    while left:
        name = left.pop()
        if name in found:
            continue
        found.add(name)
        if name in own:
            left += own[name]
        else:
            left += re.findall(r"^dep (\S+)$", read(kit, "rlibs", f"{name}.rlib", "format").decode(), re.M)
    return sorted(found - set(own))


def licences(kit, crate):
    """The files of a crate's licence."""
    folder = os.path.join(kit, "rattle", crate)
    return sorted(name for name in os.listdir(folder) if name.startswith(("LICEN", "COPYING")))


def crates(kit):
    """The crates of the toolchain, and in which of what is built each is."""
    found = {}
    for built, crate in BUILT.items():
        for name in kit_crates_below(kit, crate):
            found.setdefault(name, []).append(built)
    return dict(sorted(found.items()))


def crates_text(kit):
    """A line for each crate: its name, in what it is, and the files of its licence."""
    lines = ["Crates of the toolchain, what they are in, and their licences. Crates of this repository state none."]
    for name, built in crates(kit).items():
        stated = " ".join(licences(kit, name)) or "no licence file in the toolchain"
        lines.append(f"{name}: {', '.join(built)}: {stated}")
    return "\n".join(lines) + "\n"


def licences_text(kit, built):
    """The licences of the crates that are in these, each as it stands with its crate."""
    parts = ["Needleoat itself states no licence. These crates of the toolchain are in it.\n"]
    for name, where in crates(kit).items():
        if set(where) & set(built):
            stated = licences(kit, name)
            parts += [f"---- {name}: no licence file in the toolchain ----\n"] if not stated else []
            for file in stated:
                text = read(kit, "rattle", name, file).decode()
                parts.append(f"---- {name}: {file} ----\n\n{text.rstrip()}\n")
    return "\n".join(parts)


def first_line(*words):
    return subprocess.run(words, check=True, stdout=subprocess.PIPE, text=True).stdout.splitlines()[0]


def commit():
    """The commit that is checked out, and whether files of it are changed."""
    name = first_line("git", "-C", ROOT, "rev-parse", "HEAD")
    status = subprocess.run(["git", "-C", ROOT, "status", "--porcelain"], stdout=subprocess.PIPE, text=True, check=True)
    return f"{name}, with changes" if status.stdout else name


def built_with(kit, moment, processors):
    """With what a release was built."""
    facts = {
        "commit": commit(),
        "SOURCE_DATE_EPOCH": moment,
        "toolchain": read(kit, "KIT-ID").decode().strip(),
        "clang": first_line(os.path.join(kit, "toolchain", "bin", "clang"), "--version"),
        "dpkg-deb": first_line("dpkg-deb", "--version"),
        "Python": sys.version.split()[0],
        "zlib": zlib.ZLIB_RUNTIME_VERSION,
        "libraries for": ", ".join(processors),
        "mctpctl for": "x86-64: the toolchain links programs for no other processor",
    }
    return "".join(f"{name}: {value}\n" for name, value in facts.items())
