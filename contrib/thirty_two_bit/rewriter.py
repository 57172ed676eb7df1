"""Rewrites the LLVM module of a static library for aarch64 into one for a little-endian 32-bit processor.

`usize` stays 64 bits, and a pointer in memory keeps its place of 8 bytes: the address is in the lower half, and the
upper half is 0. So memory holds, byte for byte, what it holds on a 64-bit processor whose addresses all lie below 2^32.
Each line has to be of a form that is known here; any other stops the rewriting with its text. What a function of C
takes and returns has to be as the C header declares it (header.py).
"""

import re

SIZES = {"ptr": 8, "i8": 1, "i16": 2, "i32": 4, "i64": 8}
WIDE = "[2 x i64]"
# How aarch64 returns a struct, by how many bytes it has. A larger one goes through a pointer.
RETURNED = {"i8": range(1, 2), "i16": range(2, 3), "i32": range(3, 5), "i64": range(5, 9), WIDE: range(9, 17)}
# The struct in which C hands over a block of memory ends with the pointer to it: this is its upper half.
BLOCK_BYTES = 16
BLOCK_UPPER_HALF = 12
# What says how aarch64 is to be compiled for, and is left out; and the attributes that stay.
OF_AARCH64 = re.compile(r'"(?:frame-pointer|probe-stack|stack-probe-size|target-cpu)"="[^"]*"')
ATTRIBUTE = re.compile(r'\w+\([^)]*\)|"[^"]*"(?:="[^"]*")?|\S+')
KNOWN_ATTRIBUTE = re.compile(
    r"alwaysinline|inlinehint|noinline|nobuiltin|cold|noreturn|nounwind|nocallback|nofree|nosync|willreturn|"
    r"memory\((?:argmem|inaccessiblemem): (?:read|write|readwrite)\)"
)

# Parts of lines.
GLOBAL = r"@[\w.$]+"
INNER = r'@"[^"]*"'
LOCAL = r"%[\w.]+"
VALUE = rf"(?:{LOCAL}|{GLOBAL}|-?\d+|null|true|false|poison)"
NUMBER = r"i(?:8|16|32|64)"
WORD = r"i(?:1|8|16|32|64)"
SCALAR = rf"(?:ptr|{WORD})"
NUMBERS = rf"\{{ {NUMBER}(?:, {NUMBER})* \}}"
STRUCT = rf"\{{ (?:ptr|{NUMBER})(?:, (?:ptr|{NUMBER}))* \}}"
WIDE_WORD = re.escape(WIDE)
NOTES = r"(?:, !(?:noundef|range) !\d+)*"
TAIL = r"(?: #\d+)?"
PARAMETER = rf"{SCALAR}(?: noundef)?(?: zeroext)?(?: {LOCAL})?"
PARAMETERS = rf"(?:{PARAMETER}(?:, {PARAMETER})*)?"
PASSED = rf"(?:{SCALAR} {VALUE}(?:, {SCALAR} {VALUE})*)?"

# Lines that stay as they are. A constant holds bytes, so it holds no pointer.
OUTSIDE = [
    r"",
    r";.*",
    r"source_filename = .*",
    r"!llvm\.ident = .*",
    r"!\d+ = !\{.*\}",
    rf'{GLOBAL} = private unnamed_addr constant \[\d+ x i8\] (?:c"[^"]*"|zeroinitializer), align \d+',
    rf"declare void @llvm\.trap\(\){TAIL}",
    rf"define internal (?:noundef )?(?:zeroext )?(?:{SCALAR}|{STRUCT}|void) {INNER}\({PARAMETERS}\){TAIL} \{{",
    r"[\w.]+:(?: +;.*)?",
]
# Instructions that stay as they are: they say nothing of where a pointer's bytes lie in memory.
WITH_RESULT = [
    rf"(?:add|sub|mul|[us]div|[us]rem|and|or|xor|shl|[al]shr)(?: nuw| nsw| exact| disjoint)* {WORD} {VALUE}, {VALUE}",
    rf"icmp (?:eq|ne|[us](?:lt|le|gt|ge)) {WORD} {VALUE}, {VALUE}",
    rf"icmp (?:eq|ne) ptr {VALUE}, {VALUE}",
    rf"(?:zext|sext|trunc)(?: nuw| nsw| nneg)* {WORD} {VALUE} to {WORD}",
    rf"select i1 {VALUE}, {SCALAR} {VALUE}, {SCALAR} {VALUE}",
    rf"phi {SCALAR} \[ {VALUE}, {LOCAL} \](?:, \[ {VALUE}, {LOCAL} \])*",
    rf"extractvalue {STRUCT} {VALUE}, \d+",
    rf"insertvalue {STRUCT} {VALUE}, {SCALAR} {VALUE}, \d+",
    rf"getelementptr (?:inbounds |nuw )*i8, ptr {VALUE}, i64 {VALUE}",
    r"alloca \[\d+ x i8\], align \d+",
    rf"alloca {NUMBER}, align \d+",
    rf"load (?:ptr|{NUMBER}|{NUMBERS}), ptr {VALUE}, align \d+{NOTES}",
    rf"call (?:zeroext )?(?:{SCALAR}|{STRUCT}) {INNER}\({PASSED}\){TAIL}",
]
WITHOUT_RESULT = [
    rf"store {NUMBER} {VALUE}, ptr {VALUE}, align \d+",
    rf"store i128 0, ptr {VALUE}, align \d+",
    rf"br label {LOCAL}",
    rf"br i1 {VALUE}, label {LOCAL}, label {LOCAL}",
    rf"switch {WORD} {VALUE}, label {LOCAL} \[",
    rf"  {WORD} -?\d+, label {LOCAL}",
    r"\]",
    r"unreachable",
    rf"call void @llvm\.trap\(\){TAIL}",
    rf"call void {INNER}\({PASSED}\){TAIL}",
    rf"ret (?:void|{STRUCT} {VALUE})",
]
UNCHANGED = re.compile(
    "|".join([*OUTSIDE, rf"  {LOCAL} = (?:{'|'.join(WITH_RESULT)})", rf"  (?:{'|'.join(WITHOUT_RESULT)})"])
)
# The forms that change, of one line and of two, each with the method that rewrites it.
CHANGED = {1: [], 2: []}


def form(*lines):
    """Marks the method that rewrites lines of this form. It is given what the groups of the form match."""

    def mark(method):
        CHANGED[len(lines)].append((re.compile("\n".join(lines)), method))
        return method

    return mark


class Unknown(Exception):
    """What stops the rewriting."""


def check_layout(layout):
    """Stops at a processor that is big-endian, has no addresses of 32 bits, or aligns i64 to less than 8 bytes."""
    parts = layout.split("-")
    if parts[0] != "e" or "p:32:32" not in parts or "i64:64" not in parts:
        raise Unknown(f"a layout that is not little-endian with p:32:32 and i64:64: {layout}")


def places(struct):
    """The fields of a struct, each with where it lies on a 64-bit processor."""
    offset, found = 0, []
    for field in struct[2:-2].split(", "):
        offset += -offset % SIZES[field]
        found.append((field, offset))
        offset += SIZES[field]
    return found


def chunks(size, align):
    """The numbers that copy so many bytes from a place that is aligned so, each with where it lies."""
    offset, found = 0, []
    while offset < size:
        most = min(size - offset, aligned(align, offset))
        word = next(word for word in ("i64", "i32", "i16", "i8") if SIZES[word] <= most)
        found.append((word, offset))
        offset += SIZES[word]
    return found


def aligned(align, offset):
    """How a place is aligned that lies so many bytes past one that is aligned to `align`."""
    return align if offset == 0 else min(align, offset & -offset)


def words_of(parameters):
    """The words of parameters, without what stands beside them."""
    return [part.split()[0] for part in parameters.split(", ")] if parameters else []


class Rewriter:
    """Takes the lines of a module in order. `functions` are those of the C header."""

    def __init__(self, processor, functions):
        check_layout(processor.layout)
        self.processor = processor
        self.functions = functions
        self.fresh = 0
        self.struct_bytes = None  # of the struct that the function at hand returns through a pointer

    def take(self, lines):
        """How many of the first lines are taken, and the lines that they become."""
        for count in (2, 1):
            text = "\n".join(lines[:count])
            for pattern, method in CHANGED[count]:
                found = pattern.fullmatch(text)
                if found:
                    return count, method(self, text, *found.groups())
        if UNCHANGED.fullmatch(lines[0]):
            return 1, [lines[0]]
        raise Unknown(f"not a known form: {lines[0].strip()}")

    def new_name(self):
        self.fresh += 1
        return f"%narrow.{self.fresh}"

    def past(self, place, offset):
        """The name of a place so many bytes past another, and the lines that compute it."""
        if offset == 0:
            return place, []
        name = self.new_name()
        return name, [f"  {name} = getelementptr i8, ptr {place}, i32 {offset}"]

    def function_of_header(self, text, name):
        if name not in self.functions:
            raise Unknown(f"the header declares no {name}: {text}")
        return self.functions[name]

    @form(r"target datalayout = .*")
    def layout(self, _text):
        return [f'target datalayout = "{self.processor.layout}"']

    @form(r'target triple = "aarch64-unknown-linux-gnu"')
    def triple(self, _text):
        return [f'target triple = "{self.processor.triple}"', *self.processor.lines]

    @form(r"(attributes #\d+ = \{) (.*) \}")
    def attributes(self, text, front, words):
        found = ATTRIBUTE.findall(words)
        kept = [word for word in found if not OF_AARCH64.fullmatch(word)]
        if not all(KNOWN_ATTRIBUTE.fullmatch(word) for word in kept):
            raise Unknown(f"not a known attribute: {text}")
        # What is compiled for aarch64 is a function of the library; the others are only declared.
        more = self.processor.attributes if kept != found else []
        return [" ".join([front, *kept, *more, "}"])]

    @form(rf"declare void @llvm\.(memset|memmove|memcpy)\.([\w.]+)\.i64\((.*), i64, i1 immarg\)({TAIL})")
    def declare_copy(self, _text, what, kinds, parameters, tail):
        return [f"declare void @llvm.{what}.{kinds}.i32({parameters}, i32, i1 immarg){tail}"]

    @form(rf"declare ({WIDE_WORD}|void) @(\w+)\(({PARAMETERS})\)({TAIL})")
    def declare(self, text, result, name, parameters, tail):
        """A function that C gives the library: one that returns nothing, or a block of memory."""
        function = self.function_of_header(text, name)
        is_block = result == WIDE and function.struct_bytes == BLOCK_BYTES
        if words_of(parameters) != function.parameters or not (is_block or function.result == result):
            raise Unknown(f"the header declares {name} otherwise: {text}")
        if is_block:
            parameters = f"ptr sret([{BLOCK_BYTES} x i8]) align 8, {parameters}"
        return [f"declare void @{name}({parameters}){tail}"]

    @form(
        rf"define (?:noundef )?(?:zeroext )?({SCALAR}|{WIDE_WORD}|void) "
        rf"@(\w+)\((ptr (?:noundef )?sret\(\[(?:\d+) x i8\]\)[^,]*? {LOCAL}(?:, )?)?({PARAMETERS})\)({TAIL}) \{{"
    )
    def define(self, text, result, name, out, parameters, tail):
        """A function that C calls."""
        function = self.function_of_header(text, name)
        if words_of(parameters) != function.parameters or not self.returns(function, result, out):
            raise Unknown(f"the header declares {name} otherwise: {text}")
        if not out and function.struct_bytes and function.struct_bytes > self.processor.returned_bytes:
            self.struct_bytes = function.struct_bytes
            out = f"ptr sret([{self.struct_bytes} x i8]) %narrow.out" + (", " if parameters else "")
            result = "void"
        extended = "zeroext " if result in ("i1", "i8", "i16") else ""
        return [f"define {extended}{result} @{name}({out or ''}{parameters}){tail} {{"]

    @staticmethod
    def returns(function, result, out):
        """Whether a function of the library returns what the header says."""
        if function.struct_bytes is None:
            return not out and result == function.result
        if out:
            return result == "void" and function.struct_bytes > 16 and f"[{function.struct_bytes} x i8]" in out
        return function.struct_bytes in RETURNED.get(result, ())

    @form(r"\}")
    def end(self, text):
        self.struct_bytes = None
        return [text]

    @form(rf"  ret ({SCALAR}) {VALUE}")
    def leave(self, text, _word):
        if self.struct_bytes:
            raise Unknown(f"returns a struct that was not loaded just before: {text}")
        return [text]

    @form(rf"  ({LOCAL}) = load (i64|{WIDE_WORD}), ptr ({LOCAL}), align (\d+)", r"  ret \2 \1")
    def leave_with_struct(self, text, _name, word, place, align):
        if not self.struct_bytes:
            if word == WIDE:
                raise Unknown(f"not a known form: {text}")
            return text.split("\n")
        lines = []
        for chunk, offset in chunks(self.struct_bytes, int(align)):
            source, to_source = self.past(place, offset)
            target, to_target = self.past("%narrow.out", offset)
            number, at = self.new_name(), f"align {aligned(int(align), offset)}"
            lines += [*to_source, *to_target, f"  {number} = load {chunk}, ptr {source}, {at}"]
            lines.append(f"  store {chunk} {number}, ptr {target}, {at}")
        return [*lines, "  ret void"]

    @form(
        rf"  ({LOCAL}) = call {WIDE_WORD} @(\w+)\(({PASSED})\)({TAIL})",
        rf"  store {WIDE_WORD} \1, ptr ({LOCAL}), align 8",
    )
    def take_block(self, text, _name, callee, passed, tail, place):
        """C returns a block where the next line stores what it returns. What it leaves in the upper half is cleared."""
        function = self.function_of_header(text, callee)
        if words_of(passed) != function.parameters or function.struct_bytes != BLOCK_BYTES:
            raise Unknown(f"the header declares {callee} otherwise: {text}")
        upper, to_upper = self.past(place, BLOCK_UPPER_HALF)
        call = f"  call void @{callee}(ptr sret([{BLOCK_BYTES} x i8]) align 8 {place}, {passed}){tail}"
        return [call, *to_upper, f"  store i32 0, ptr {upper}, align 4"]

    @form(rf"  call void @(\w+)\(({PASSED})\)({TAIL})")
    def call_c(self, text, callee, passed, _tail):
        function = self.function_of_header(text, callee)
        if words_of(passed) != function.parameters or function.result != "void":
            raise Unknown(f"the header declares {callee} otherwise: {text}")
        return [text]

    @form(rf"  call void @llvm\.(memset|memmove|memcpy)\.([\w.]+)\.i64\((.*), i64 (\d+|{LOCAL}), i1 false\)")
    def copy(self, _text, what, kinds, passed, length):
        lines = []
        if length.startswith("%"):
            length, wide = self.new_name(), length
            lines = [f"  {length} = trunc i64 {wide} to i32"]
        return [*lines, f"  call void @llvm.{what}.{kinds}.i32({passed}, i32 {length}, i1 false)"]

    @form(rf"  ({LOCAL}) = alloca ptr, align 8")
    def alloca(self, _text, name):
        return [f"  {name} = alloca [8 x i8], align 8"]

    @form(rf"  store ptr ({VALUE}), ptr ({VALUE}), align (\d+)")
    def store_pointer(self, text, _value, place, align):
        upper, to_upper = self.past(place, 4)
        return [text, *to_upper, f"  store i32 0, ptr {upper}, align {aligned(int(align), 4)}"]

    @form(rf"  ({LOCAL}) = load ({STRUCT}), ptr ({VALUE}), align (\d+)")
    def load_struct(self, text, name, struct, place, align):
        """A struct with a pointer is loaded field by field, each from where it lies on a 64-bit processor."""
        if "ptr" not in struct:
            return [text]
        lines, value = [], "poison"
        fields = places(struct)
        for number, (field, offset) in enumerate(fields):
            here, to_here = self.past(place, offset)
            loaded = self.new_name()
            whole = name if number == len(fields) - 1 else self.new_name()
            lines += [*to_here, f"  {loaded} = load {field}, ptr {here}, align {aligned(int(align), offset)}"]
            lines.append(f"  {whole} = insertvalue {struct} {value}, {field} {loaded}, {number}")
            value = whole
        return lines

    @form(rf"  ({LOCAL}) = ptrtoaddr ptr ({VALUE}) to i64")
    def address(self, _text, name, value):
        return [f"  {name} = ptrtoint ptr {value} to i64"]


def rewrite(text, processor, functions):
    """The text of the module for this processor."""
    if "%narrow." in text:
        raise Unknown("the module has names that begin as those which the rewriter gives")
    rewriter, lines, out, taken = Rewriter(processor, functions), text.splitlines(), [], 0
    while taken < len(lines):
        try:
            count, made = rewriter.take(lines[taken : taken + 2])
        except Unknown as fault:
            raise Unknown(f"line {taken + 1} of the module: {fault}") from None
        taken += count
        out += made
    return "\n".join([*out, ""])
