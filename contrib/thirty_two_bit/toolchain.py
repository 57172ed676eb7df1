"""The toolchain: it proves a library, and hands the library's LLVM module to a clang, which compiles it.

`rattle build --toolchain FOLDER` runs the clang of that folder. For 32 bits it is one that keeps the module first.
"""

import os
import re
import shutil
import subprocess
import tempfile

ROOT = os.path.dirname(os.path.dirname(os.path.dirname(os.path.realpath(__file__))))
AARCH64 = "aarch64-unknown-linux-gnu"
SHOWN = 3000  # how much is shown of what a command that failed has said

# Keeps the module and the words that clang is called with, and then runs the toolchain's own clang.
KEEPING_CLANG = """#!/bin/sh
for word; do
    if [ "$word" = module.bc ]; then
        /bin/cp module.bc '{room}/module.bc'
        printf '%s\\n' "$@" >'{room}/words'
    fi
done
exec '{kit}/toolchain/bin/clang' "$@"
"""

# With these words, which are for every processor, the toolchain has clang compile a module.
GENERAL = [
    *["-mllvm", "-no-trap-after-noreturn", "-ffunction-sections", "-fdata-sections", "-mllvm", "-trap-unreachable"],
    *["-mllvm", "-disable-machine-licm", "-mllvm", "-disable-postra-machine-licm"],
    *["-mllvm", "-sink-common-insts=false", "--no-default-config", "-no-canonical-prefixes", "-fintegrated-cc1"],
    *["-fno-crash-diagnostics", "-Werror"],
]
# These are for aarch64 or x86-64 alone, or say what is read and written.
OTHERS = {
    *["-march=armv8-a", "-aarch64-load-store-renaming=false", "-no-x86-call-frame-opt", "-fPIC", "-O3"],
    *["-x", "ir", "module.bc", "-c", "-S", "-o", "printed.ll", "-emit-llvm", "-Xclang", "-emit-llvm-uselists"],
}


class Failed(Exception):
    """A step that failed, with what it said."""


def run(words, **how):
    """Runs a command, and returns what it printed."""
    ran = subprocess.run(words, stdout=subprocess.PIPE, stderr=subprocess.STDOUT, text=True, errors="replace", **how)
    if ran.returncode != 0:
        raise Failed(f"{' '.join(words[:3])} failed:\n{ran.stdout[-SHOWN:]}")
    return ran.stdout


def kit():
    """The folder of the toolchain."""
    rattle = shutil.which("rattle")
    if rattle is None:
        raise Failed("there is no rattle")
    return os.path.dirname(os.path.dirname(os.path.realpath(rattle)))


def clang(*words):
    return run([f"{kit()}/toolchain/bin/clang", *words])


def archive(library, thing):
    """Puts an object file into a static library."""
    if os.path.exists(library):
        os.remove(library)
    run([f"{kit()}/toolchain/bin/llvm-ar", "rcsD", library, thing])


def keeping_tools(room):
    """A folder of tools as `--toolchain` takes it, whose clang keeps the module in this room."""
    tools = os.path.join(room, "tools")
    os.makedirs(f"{tools}/bin")
    os.symlink(f"{kit()}/toolchain/lib", f"{tools}/lib")
    for name in os.listdir(f"{kit()}/toolchain/bin"):
        if name != "clang":
            os.symlink(f"{kit()}/toolchain/bin/{name}", f"{tools}/bin/{name}")
    with open(f"{tools}/bin/clang", "w", encoding="utf-8") as file:
        file.write(KEEPING_CLANG.format(room=room, kit=kit()))
    os.chmod(f"{tools}/bin/clang", 0o755)
    return tools


def libraries_of(crate):
    """The flags that name the libraries of a crate (crates.txt): those of this repository and those of the kit."""
    with open(f"{ROOT}/crates.txt", encoding="utf-8") as file:
        named = re.search(rf"^{crate} staticlib: (.*)$", file.read(), re.M)[1].split()
    words = ["--extern", f"std={kit()}/rlibs/std.rlib", "-L", f"dependency={kit()}/rlibs"]
    for name in named:
        own = f"{ROOT}/crates/{name}/out/rlib/{name}.rlib"
        words += ["--extern", f"{name}={own if os.path.isdir(own) else f'{kit()}/rlibs/{name}.rlib'}"]
    for name in sorted(os.listdir(f"{ROOT}/crates")):
        if os.path.isdir(f"{ROOT}/crates/{name}/out/rlib"):
            words += ["-L", f"dependency={ROOT}/crates/{name}/out/rlib"]
    return words


def check_words(words):
    """Stops where the toolchain has clang compile in a way that is not known here."""
    for word in words:
        if not (word in GENERAL or word in OTHERS or word.startswith(("--target=", "--sysroot="))):
            raise Failed(f"the toolchain gives clang a word that is not known: {word}")


def build(crate, triple, tools, out):
    """Proves a static library over the crates below it, which stand proved in `crates/*/out`, and builds it."""
    folder = f"{ROOT}/crates/{crate}"
    os.makedirs(f"{folder}/out/incremental", exist_ok=True)
    logic = ["--antt-project", f"{kit()}/rattle/logic/antt-project.json", "--logic-built", f"{kit()}/logic_built"]
    made = ["--crate-type", "staticlib", "--target", triple, "--incremental", "out/incremental", "--jobs", str(jobs())]
    words = ["rattle", "build", "--crate-name", crate, "src/lib.rt", *libraries_of(crate), *logic]
    run([*words, "--links", f"{crate}=", *made, "--toolchain", tools, "--backend", "llvm", "-o", out], cwd=folder)


def jobs():
    """How many processors a proof gets: more than four gain nothing."""
    return min(4, len(os.sched_getaffinity(0)))


def module_of(crate, is_proved, library=None):
    """Proves a static library, and returns its LLVM module for aarch64 as text. Where the crates below it do not stand
    proved in `crates/*/out`, `rt check` proves them first. The library for aarch64 is left in the named file."""
    if not is_proved:
        run(["rt", "check"], cwd=f"{ROOT}/crates/{crate}")
    with tempfile.TemporaryDirectory() as room:
        build(crate, AARCH64, keeping_tools(room), library or f"{room}/library.a")
        with open(f"{room}/words", encoding="utf-8") as file:
            check_words(file.read().split("\n")[:-1])
        as_text = ["-S", "-emit-llvm", "-x", "ir", f"{room}/module.bc", "-O0", "-Xclang", "-disable-llvm-passes"]
        return clang(f"--target={AARCH64}", *as_text, "-o", "-")


def layout_and_triple(flags):
    """How memory is laid out on a processor, and its triple, as clang has them."""
    with tempfile.TemporaryDirectory() as room:
        empty = os.path.join(room, "empty.c")
        with open(empty, "w", encoding="utf-8"):
            pass
        told = clang(*flags, "-S", "-emit-llvm", empty, "-o", "-")
    return [re.search(rf'^target {what} = "(.*)"$', told, re.M)[1] for what in ("datalayout", "triple")]


def compile_module(text, flags, out):
    """Compiles the text of a module to an object file."""
    module = f"{out}.ll"
    with open(module, "w", encoding="utf-8") as file:
        file.write(text)
    clang(*GENERAL, *flags, "-c", "-x", "ir", module, "-o", out)
    os.remove(module)
