"""What is put where: the files of a package in memory, by their paths below a prefix."""

import os
import re
from collections import namedtuple

import completions

ROOT = os.path.dirname(os.path.dirname(os.path.dirname(os.path.realpath(__file__))))
HERE = os.path.join(ROOT, "contrib", "packaging")
LIBRARIES = ["libneedleoat_c.a", "libneedleoat_wire_c.a"]
PLAIN, PROGRAM = 0o644, 0o755
PAGE = "share/man/man1/mctpctl.1"
# The program itself. The command, bin/mctpctl, sets the terminal and runs it.
COMMAND, ITSELF = "bin/mctpctl", "libexec/needleoat/mctpctl"

# What a file has, and its mode.
File = namedtuple("File", "content mode")


def read(*path):
    with open(os.path.join(*path), "rb") as file:
        return file.read()


def version():
    """The version that `mctpctl --version` names first."""
    source = read(ROOT, "crates", "mctpctl_command_line", "src", "help.rt").decode()
    return re.search(r'pub const VERSION: &str = "(\S+) ', source)[1]


def filled(name, values):
    """A file of this folder with each `@NAME@` filled in."""
    text = read(HERE, name).decode()
    for word, value in values.items():
        text = text.replace(f"@{word}@", value)
    return text.encode()


def example_tree(folder):
    """The examples in C, what each has to write, and a CMakeLists.txt over the installed libraries."""
    source = os.path.join(ROOT, "examples", "c")
    tree = {f"{folder}/CMakeLists.txt": File(read(HERE, "CMakeLists.txt"), PLAIN)}
    for place in ("", "bare/"):
        for name in os.listdir(os.path.join(source, place)):
            if name.endswith((".c", ".h", ".expected", ".ld")):
                tree[f"{folder}/{place}{name}"] = File(read(source, place, name), PLAIN)
    tree[f"{folder}/copies.txt"] = File(read(ROOT, "examples", "copies.txt"), PLAIN)
    return tree


def c_tree(libraries, prefix, documents):
    """The libraries for C of each processor that has a folder in `libraries`, and all that goes with them.

    `prefix` is where the files will be, as needleoat.pc names it; `documents` the folder of documents below it.
    """
    values = {"PREFIX": prefix, "PROCESSOR": "x86-64", "VERSION": version()}
    config = "lib/cmake/needleoat/needleoat-config"
    tree = {
        "include/needleoat.h": File(read(ROOT, "include", "needleoat.h"), PLAIN),
        "lib/pkgconfig/needleoat.pc": File(filled("needleoat.pc.in", values), PLAIN),
        f"{config}.cmake": File(read(HERE, "needleoat-config.cmake"), PLAIN),
        f"{config}-version.cmake": File(filled("needleoat-config-version.cmake.in", values), PLAIN),
        f"{documents}/C.md": File(read(ROOT, "docs", "C.md"), PLAIN),
        **example_tree(f"{documents}/examples"),
    }
    for processor in os.listdir(libraries):
        for name in LIBRARIES:
            tree[f"lib/needleoat/{processor}/{name}"] = File(read(libraries, processor, name), PLAIN)
    return tree


def completion_tree():
    """The completions of the program for each shell."""
    return {path: File(make().encode(), PLAIN) for path, make in completions.FILES.items()}


def program_tree(program):
    """The command and its program, their man page and their completions."""
    set_line = read(HERE, "set_line.sh").decode()
    return {
        COMMAND: File(filled("mctpctl.in", {"SET_LINE": set_line}), PROGRAM),
        ITSELF: File(read(program), PROGRAM),
        PAGE: File(read(ROOT, "docs", "mctpctl.1"), PLAIN),
        **completion_tree(),
    }


def write(tree, folder):
    """Writes the files of a tree below a folder, and yields the path of each."""
    for path in sorted(tree):
        place = os.path.join(folder, path)
        os.makedirs(os.path.dirname(place), exist_ok=True)
        with open(place, "wb") as file:
            file.write(tree[path].content)
        os.chmod(place, tree[path].mode)
        yield place
