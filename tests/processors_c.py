"""The processors that `tests/check_c` knows: how a program is compiled for each, and how it is run here."""

import os
from collections import namedtuple

# A processor: what `rt lib --target` calls it, or None where `contrib/thirty_two_bit/build` has it by its name; the
# compiler with its words; further files of a program; the words that run a program, from the variables of its
# environment; its other tools; what a library may leave undefined beside what each may; and the variables of each run.
Target = namedtuple("Target", "name triple compiler others words nm size undefined variables")

X86_64 = "x86-64"
AARCH64 = "aarch64"


def natively(_variables):
    """A program of this machine."""
    return []


def by_user_emulator(emulator, libraries):
    """A program of Linux, by qemu. It has the environment."""
    return lambda _variables: [emulator, "-L", libraries]


def by_system_emulator(emulator, *machine):
    """A program without an operating system, by qemu. Its environment is its command line (examples/c/semihosted.c)."""
    quiet = ["-nographic", "-monitor", "none", "-serial", "none"]

    def words(variables):
        arguments = "".join(f",arg={name}={value}" for name, value in variables.items())
        semihosting = f"enable=on,target=native,arg=program{arguments}"
        return [emulator, *machine, *quiet, "-semihosting-config", semihosting, "-kernel"]

    return words


LARGE = {"__flash_size": 0x400000, "__ram_size": 0x400000, "__stack_size": 0x10000}
SMALL = {"__flash_size": 0x40000, "__ram_size": 0x4000, "__stack_size": 0x1400}


def bare(compiler, flags, flash, ram, sizes):
    """A compiler with picolibc, for a machine with memory of these sizes at two places."""
    places = {"__flash": flash, "__ram": ram, **sizes}
    library = ["--specs=picolibc.specs", "--oslib=semihost", "--crt0=hosted", "-Wl,-z,noexecstack"]
    return [compiler, *flags, *library, *(f"-Wl,--defsym={name}={place:#x}" for name, place in places.items())]


MPS2 = by_system_emulator("qemu-system-arm", "-M", "mps2-an386")
MICROBIT = by_system_emulator("qemu-system-arm", "-M", "microbit")
# The same board for firmware, with LINE as its serial line.
MPS2_WITH_LINE = ["-M", "mps2-an386", "-display", "none", "-monitor", "none", "-serial", "LINE"]
BARE_MACHINE = ["qemu-system-arm", *MPS2_WITH_LINE, "-kernel"]
# What the processor lacks, a function of the compiler's own library does; these are by the rules of ARM.
ARM_NAMES = {f"__aeabi_mem{what}{align}" for what in ("cpy", "move", "set", "clr") for align in ("", "4", "8")}
ARM_TOOLS = ["arm-none-eabi-nm", "arm-none-eabi-size"]


def cortex_m(name, undefined, variables, machine=MPS2, sizes=None):
    compiler = bare("arm-none-eabi-gcc", [f"-mcpu={name}", "-mthumb"], 0, 0x20000000, sizes or LARGE)
    return Target(name, None, compiler, ["semihosted.c"], machine, *ARM_TOOLS, ARM_NAMES | undefined, variables)


# Processors on which the codecs alone are run, with the library of another one: a Cortex-M0, which has no other
# instructions than those of an ARMv6-M, and 16 KiB of RAM here; and a program that passes fractions in registers.
CORTEX_M0 = cortex_m("cortex-m0", set(), {}, MICROBIT, SMALL)
HARD_FLOAT = cortex_m("cortex-m4", set(), {})
HARD_FLOAT = HARD_FLOAT._replace(
    name="cortex-m4, -mfloat-abi=hard", compiler=[*HARD_FLOAT.compiler, "-mfloat-abi=hard", "-mfpu=fpv4-sp-d16"]
)
WITH_CODECS_OF = {"cortex-m0plus": CORTEX_M0, "cortex-m4": HARD_FLOAT}

# A Cortex-M0+ has no long shifts, no long product and no division.
M0_NAMES = {"__aeabi_llsl", "__aeabi_llsr", "__aeabi_lmul", "__aeabi_uidiv"}

# The last one's library stays in `out/`.
TARGETS = [
    cortex_m("cortex-m4", set(), {}),
    # It is run on a Cortex-M4 that faults where it would, at an access that is not aligned.
    cortex_m("cortex-m0plus", M0_NAMES, {"TRAP_UNALIGNED": "1"}),
    Target(
        "armv7",
        None,
        ["arm-linux-gnueabihf-gcc"],
        [],
        by_user_emulator("qemu-arm", "/usr/arm-linux-gnueabihf"),
        "arm-linux-gnueabihf-nm",
        "arm-linux-gnueabihf-size",
        {"__aeabi_uidiv"},
        {},
    ),
    Target(
        "riscv32",
        None,
        bare("riscv64-unknown-elf-gcc", ["-march=rv32imac", "-mabi=ilp32"], 0x80000000, 0x80400000, LARGE),
        ["semihosted.c"],
        by_system_emulator("qemu-system-riscv32", "-M", "virt", "-bios", "none"),
        "riscv64-unknown-elf-nm",
        "riscv64-unknown-elf-size",
        set(),
        {},
    ),
    Target(
        AARCH64,
        "aarch64-unknown-linux-gnu",
        ["aarch64-linux-gnu-gcc"],
        [],
        by_user_emulator("qemu-aarch64", "/usr/aarch64-linux-gnu"),
        "aarch64-linux-gnu-nm",
        "aarch64-linux-gnu-size",
        set(),
        {},
    ),
    Target(X86_64, "x86_64-unknown-linux-gnu", [os.environ.get("CC", "cc")], [], natively, "nm", "size", set(), {}),
]
