"""The text of an LLVM module for aarch64, for wasm64: both have addresses of 64 bits, so that no pointer changes.

The layout and the triple are those of wasm64 then, attributes that say of aarch64 are left out, and the one
instruction of aarch64 that a module calls by its own name is written in general ones. Whatever else is of one
processor alone, or is not known here, stops the build.
"""

import re


class Unknown(Exception):
    """What the module has that is not known here."""


# Attributes of functions that say how code for aarch64 is made.
OF_AARCH64 = re.compile(r' "(?:frame-pointer|probe-stack|stack-probe-size|target-cpu)"="[^"]*"')

# The sums of neighbours in two vectors.
PAIRS = "@llvm.aarch64.neon.addp.v16i8("
PAIRS_DECLARED = re.compile(r"^declare <16 x i8> @llvm\.aarch64\.neon\.addp\.v16i8\(.*$", re.M)
SUMS = """define internal <16 x i8> @sums_of_pairs(<16 x i8> %a, <16 x i8> %b) {{
  %even = shufflevector <16 x i8> %a, <16 x i8> %b, <16 x i32> <{even}>
  %odd = shufflevector <16 x i8> %a, <16 x i8> %b, <16 x i32> <{odd}>
  %sum = add <16 x i8> %even, %odd
  ret <16 x i8> %sum
}}""".format(
    even=", ".join(f"i32 {2 * place}" for place in range(16)),
    odd=", ".join(f"i32 {2 * place + 1}" for place in range(16)),
)

# What LLVM calls by a name of its own, before the types, and every processor has.
INTRINSIC = re.compile(r"@llvm\.([a-z0-9_.]+?)(?:\.(?:v[0-9]+)?[ipf][0-9]+)*\(")
GENERAL = {"arithmetic.fence", "ctlz", "cttz", "memcpy", "memmove", "memset", "trap"}

# What is not for every processor, and would be compiled to something else, or not at all.
STRANGE = [
    ("assembly", re.compile(r"\basm\b")),
    ("an attribute of a processor", re.compile(r'"(?:target-[a-z]+|tune-cpu)"=')),
    ("a calling convention of a processor", re.compile(r"\baarch64_[a-z_]+\b")),
    ("an address space", re.compile(r"\baddrspace\(")),
    ("a number of long double", re.compile(r"\b(?:fp128|x86_fp80|ppc_fp128)\b")),
    ("a variable of a thread", re.compile(r"\bthread_local\b")),
    ("a vector whose length is not known", re.compile(r"<vscale ")),
]


def without_strings(text):
    """The text without what stands between quotes in constants, which may have any signs."""
    return re.sub(r'\bc"[^"]*"', 'c""', text)


def replaced_once(pattern, new, text, what):
    text, count = re.subn(pattern, lambda _: new, text, flags=re.M)
    if count != 1:
        raise Unknown(f"the module names its {what} {count} times")
    return text


def rewritten(text, layout, triple):
    """The module's text for wasm64, whose layout and triple these are."""
    text = replaced_once(r"^target datalayout = .*$", f'target datalayout = "{layout}"', text, "layout")
    text = replaced_once(r"^target triple = .*$", f'target triple = "{triple}"', text, "triple")
    text = PAIRS_DECLARED.sub(SUMS, text).replace(PAIRS, "@sums_of_pairs(")
    text = OF_AARCH64.sub("", text)
    check(without_strings(text))
    return text


def check(text):
    for name in sorted(set(INTRINSIC.findall(text))):
        if name not in GENERAL:
            raise Unknown(f"the module calls llvm.{name}")
    for what, pattern in STRANGE:
        found = pattern.search(text)
        if found:
            raise Unknown(f"the module has {what}: {found[0]}")
