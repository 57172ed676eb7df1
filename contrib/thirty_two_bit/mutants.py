"""Faults of the rewriter that its tests have to find: a text that stands once in a file, and what replaces it."""

from collections import namedtuple

Mutant = namedtuple("Mutant", "name file old new")

MUTANTS = [
    Mutant(
        "a struct with a pointer is loaded whole",
        "rewriter.py",
        'if "ptr" not in struct:',
        "if struct:",
    ),
    Mutant(
        "a small result is not extended",
        "rewriter.py",
        'in ("i1", "i8", "i16") else',
        "in () else",
    ),
    Mutant(
        "a truth value is not extended",
        "rewriter.py",
        'in ("i1", "i8", "i16") else',
        'in ("i8", "i16") else',
    ),
    Mutant(
        "a stored pointer leaves its upper half",
        "rewriter.py",
        "return [text, *to_upper, f",
        "return [text] or [f",
    ),
    Mutant(
        "the upper half is taken to be aligned as the place is",
        "rewriter.py",
        "align {aligned(int(align), 4)}",
        "align {align}",
    ),
    Mutant(
        "a block of C leaves the upper half of its pointer",
        "rewriter.py",
        "return [call, *to_upper, f",
        "return [call] or [f",
    ),
    Mutant(
        "the pointer of a block lies elsewhere",
        "rewriter.py",
        "BLOCK_UPPER_HALF = 12",
        "BLOCK_UPPER_HALF = 8",
    ),
    Mutant(
        "a pointer has room for its lower half",
        "rewriter.py",
        "alloca [8 x i8], align 8",
        "alloca [4 x i8], align 8",
    ),
    Mutant(
        "a pointer is loaded from where 32 bits would have it",
        "rewriter.py",
        '"ptr": 8',
        '"ptr": 4',
    ),
    Mutant(
        "fields lie side by side",
        "rewriter.py",
        "offset += -offset % SIZES[field]",
        "offset += 0",
    ),
    Mutant(
        "a struct is returned past its end",
        "rewriter.py",
        "most = min(size - offset, aligned(align, offset))",
        "most = aligned(align, offset)",
    ),
    Mutant(
        "a struct of 8 bytes is returned in registers",
        "rewriter.py",
        "> self.processor.returned_bytes",
        "> 8",
    ),
    Mutant(
        "a place past another is aligned as that is",
        "rewriter.py",
        "min(align, offset & -offset)",
        "align",
    ),
    Mutant(
        "a function after one with a struct has its result",
        "rewriter.py",
        "self.struct_bytes = None\n        return [text]",
        "return [text]",
    ),
    Mutant(
        "a struct may be returned that was not loaded",
        "rewriter.py",
        "if self.struct_bytes:\n            raise",
        "if False:\n            raise",
    ),
    Mutant(
        "any order of bytes",
        "rewriter.py",
        'parts[0] != "e" or ',
        "",
    ),
    Mutant(
        "any alignment of i64",
        "rewriter.py",
        ' or "i64:64" not in parts',
        "",
    ),
    Mutant(
        "addresses of any width",
        "rewriter.py",
        '"p:32:32" not in parts or ',
        "",
    ),
    Mutant(
        "a constant may hold a pointer",
        "rewriter.py",
        'private unnamed_addr constant \\[\\d+ x i8\\] (?:c"[^"]*"|zeroinitializer)',
        "private unnamed_addr constant .*",
    ),
    Mutant(
        "a call may go through a pointer",
        "rewriter.py",
        'rf"call void {INNER}',
        'rf"call void (?:{INNER}|{LOCAL})',
    ),
    Mutant(
        "a call for a number may go through a pointer",
        "rewriter.py",
        "(?:{SCALAR}|{STRUCT}) {INNER}",
        "(?:{SCALAR}|{STRUCT}) (?:{INNER}|{LOCAL})",
    ),
    Mutant(
        "a step may be by any type",
        "rewriter.py",
        "(?:inbounds |nuw )*i8, ptr",
        "(?:inbounds |nuw )*.*, ptr",
    ),
    Mutant(
        "the length of a copy keeps 64 bits",
        "rewriter.py",
        'f"  {length} = trunc i64 {wide} to i32"',
        'f"  {length} = add i64 {wide}, 0"',
    ),
    Mutant(
        "words for aarch64 stay",
        "rewriter.py",
        "if not OF_AARCH64.fullmatch(word)",
        "if True",
    ),
    Mutant(
        "any attribute stays",
        "rewriter.py",
        "if not all(KNOWN_ATTRIBUTE",
        "if False and not all(KNOWN_ATTRIBUTE",
    ),
    Mutant(
        "a function need not take what the header says",
        "rewriter.py",
        "if words_of(parameters) != function.parameters or not self.returns",
        "if not self.returns",
    ),
    Mutant(
        "a function need not return what the header says",
        "rewriter.py",
        " or not self.returns(function, result, out)",
        "",
    ),
    Mutant(
        "a struct may have another size than the header says",
        "rewriter.py",
        "return function.struct_bytes in RETURNED.get(result, ())",
        "return True",
    ),
    Mutant(
        "a size_t passes for 64 bits",
        "header.py",
        '"uint64_t": "i64"',
        '"uint64_t": "i64", "size_t": "i64"',
    ),
    Mutant(
        "an array is passed whole",
        "header.py",
        '"*" in text or "[" in text',
        '"*" in text',
    ),
    Mutant(
        "C may be asked for a block with other words",
        "rewriter.py",
        "words_of(passed) != function.parameters or function.struct_bytes",
        "function.struct_bytes",
    ),
    Mutant(
        "C may be called with other words",
        "rewriter.py",
        'words_of(passed) != function.parameters or function.result != "void"',
        'function.result != "void"',
    ),
    Mutant(
        "what the processor adds to each function is left out",
        "rewriter.py",
        "self.processor.attributes if kept != found else []",
        "[]",
    ),
    Mutant(
        "what the processor adds to a module is left out",
        "rewriter.py",
        ", *self.processor.lines]",
        "]",
    ),
]
