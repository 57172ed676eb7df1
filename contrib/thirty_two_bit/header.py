"""Reads from a C header what each function takes and returns, in the words of LLVM.

A function's result is a word as `i32`, or a struct of so many bytes. `needleoat.h` asserts the size of each struct.
"""

import re
from collections import namedtuple

# What a function takes, as words of LLVM; what it returns: such a word, or None for a struct; and the struct's bytes.
Function = namedtuple("Function", "parameters result struct_bytes")

WORDS = {"void": "void", "bool": "i1", "uint8_t": "i8", "uint16_t": "i16", "uint32_t": "i32", "uint64_t": "i64"}
COMMENT = re.compile(r"/\*.*?\*/|//[^\n]*", re.S)
STRUCT_SIZE = re.compile(r"NEEDLEOAT_ASSERT\(sizeof\(struct (\w+)\) == (\d+)\);")
PROTOTYPE = re.compile(r"^((?:struct )?\w+) (\w+)\(([^()]*)\);", re.M)


class HeaderFault(Exception):
    """A declaration that is not of a known form."""


def parameter_word(text):
    """The word of one parameter as it is declared: a pointer, an array or a number."""
    if "*" in text or "[" in text:
        return "ptr"
    word = WORDS.get(text.split()[0])
    if word is None or word == "void":
        raise HeaderFault(f"a parameter of an unknown form: {text}")
    return word


def functions(text):
    """What each function that a header's text declares takes and returns, by its name."""
    text = COMMENT.sub("", text)
    sizes = {name: int(size) for name, size in STRUCT_SIZE.findall(text)}
    declared = {}
    for result, name, parameters in PROTOTYPE.findall(text):
        taken = [] if parameters == "void" else [parameter_word(part.strip()) for part in parameters.split(",")]
        if result.startswith("struct "):
            declared[name] = Function(taken, None, sizes[result.split()[1]])
        elif result in WORDS:
            declared[name] = Function(taken, WORDS[result], None)
        else:
            raise HeaderFault(f"{name} returns an unknown type: {result}")
    return declared
