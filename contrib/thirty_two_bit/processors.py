"""The 32-bit processors that the libraries are built for."""

from collections import namedtuple

# A processor: clang's flags for it; the bytes of the largest struct that a function of C returns in registers there;
# attributes of each function, and lines of the module, that its triple and layout do not say.
Processor = namedtuple("Processor", "name flags returned_bytes attributes lines")

# The Procedure Call Standard of ARM, and the calling convention ilp32 of RISC-V.
ARM_RETURNED = 4
RISCV_RETURNED = 8
# The library has no fractions, so it is for programs that pass them in registers and for those that do not.
ANY_FRACTIONS = ['module asm ".eabi_attribute 28, 3"']

M4 = ["--target=thumbv7em-none-eabi", "-mcpu=cortex-m4", "-mfpu=none", "-mfloat-abi=soft", "-Os"]
M0PLUS = ["--target=thumbv6m-none-eabi", "-mcpu=cortex-m0plus", "-Os"]
ARMV7 = ["--target=armv7a-unknown-linux-gnueabihf", "-mfpu=vfpv3-d16", "-fPIC", "-O2"]
RISCV32 = ["--target=riscv32-unknown-none-elf", "-march=rv32imac", "-mabi=ilp32", "-Os"]
SMALL = ["optsize"]

PROCESSORS = [
    Processor("cortex-m4", M4, ARM_RETURNED, SMALL, ANY_FRACTIONS),
    Processor("cortex-m0plus", M0PLUS, ARM_RETURNED, SMALL, ANY_FRACTIONS),
    Processor("armv7", ARMV7, ARM_RETURNED, [], ANY_FRACTIONS),
    Processor("riscv32", RISCV32, RISCV_RETURNED, SMALL, []),
]
