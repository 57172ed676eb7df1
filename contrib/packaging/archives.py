"""Archives whose bytes follow from their files and a moment alone: sorted, owned by root, and all of that moment."""

import gzip
import hashlib
import io
import os
import subprocess
import tarfile
import tempfile

import trees
from trees import PLAIN, File


def folders_of(paths):
    """Each folder above these paths, but the top."""
    found = set()
    for path in paths:
        while os.path.dirname(path):
            path = os.path.dirname(path)
            found.add(path)
    return found


def entry(path, moment, mode, kind):
    """The head of a file or a folder in an archive of tar."""
    head = tarfile.TarInfo(path)
    head.mtime, head.mode, head.type = moment, mode, kind
    head.uname = head.gname = "root"
    return head


def tar(tree, top, moment, out):
    """Writes a tree, below the folder `top`, as a compressed archive of tar."""
    files = {f"{top}/{path}": file for path, file in tree.items()}
    bytes_ = io.BytesIO()
    with tarfile.open(fileobj=bytes_, mode="w", format=tarfile.USTAR_FORMAT) as archive:
        for path in sorted({*files, *folders_of(files)}):
            if path in files:
                head = entry(path, moment, files[path].mode, tarfile.REGTYPE)
                head.size = len(files[path].content)
                archive.addfile(head, io.BytesIO(files[path].content))
            else:
                archive.addfile(entry(path, moment, 0o755, tarfile.DIRTYPE))
    with open(out, "wb") as file:
        file.write(gzip.compress(bytes_.getvalue(), 9, mtime=moment))


def control(fields, tree):
    """The text of a package's `control`, with the size that it has installed, in KiB."""
    size = sum(-(-len(file.content) // 1024) for file in tree.values())
    return "".join(f"{name}: {value}\n" for name, value in {**fields, "Installed-Size": size}.items())


def debian(tree, fields, moment, out):
    """Writes a tree, whose paths are below /, as a package of Debian."""
    sums = "".join(f"{hashlib.md5(tree[path].content).hexdigest()}  {path}\n" for path in sorted(tree))
    parts = {
        **tree,
        "DEBIAN/control": File(control(fields, tree).encode(), PLAIN),
        "DEBIAN/md5sums": File(sums.encode(), PLAIN),
    }
    with tempfile.TemporaryDirectory() as room:
        for place in trees.write(parts, room):
            os.utime(place, (moment, moment))
        for folder, _, _ in os.walk(room):
            os.chmod(folder, 0o755)
        for folder, _, _ in os.walk(room, topdown=False):
            os.utime(folder, (moment, moment))
        words = ["dpkg-deb", "--root-owner-group", "-Zgzip", "-z9", "--build", room, out]
        environment = {**os.environ, "SOURCE_DATE_EPOCH": str(moment)}
        subprocess.run(words, check=True, stdout=subprocess.DEVNULL, env=environment)
