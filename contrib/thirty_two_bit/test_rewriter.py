"""Tests of the rewriter: each form of line that it knows, and lines that have to stop it."""

import unittest
from collections import namedtuple

import header
from rewriter import Unknown, rewrite

Processor = namedtuple("Processor", "layout triple returned_bytes attributes lines")
ARM_LAYOUT = "e-m:e-p:32:32-Fi8-i64:64-v128:64:128-a:0:32-n32-S64"
ARM = Processor(ARM_LAYOUT, "thumbv7em-unknown-none-eabi", 4, ["optsize"], ['module asm ".eabi_attribute 28, 3"'])
RISCV = Processor("e-m:e-p:32:32-i64:64-n32-S128", "riscv32-unknown-none-elf", 8, [], [])

# A header with each kind of function.
HEADER = """
NEEDLEOAT_ASSERT(sizeof(struct pair) == 2);
NEEDLEOAT_ASSERT(sizeof(struct frame) == 8);
NEEDLEOAT_ASSERT(sizeof(struct packet) == 12);
NEEDLEOAT_ASSERT(sizeof(struct opening) == 16);
NEEDLEOAT_ASSERT(sizeof(struct step) == 48);
NEEDLEOAT_ASSERT(sizeof(struct block) == 16);
bool is_good(uint8_t byte);
uint8_t checksum(const uint8_t *bytes, uint64_t length); /* size_t would be another word */
uint16_t half(void);
uint32_t count(uint32_t length);
uint64_t number(uint64_t now_ms);
void forget(struct step *step);
struct pair read_pair(const uint8_t *bytes);
struct frame read_frame(const uint8_t *bytes);
struct packet read_packet(const uint8_t *bytes,
                          uint64_t length);
struct packet last_packet(void);
struct opening open_one(uint64_t now_ms);
struct step receive(uint8_t packets[5][68]);
struct block rattle_alloc(uint64_t size, uint64_t align);
struct block rattle_realloc(uint8_t *block, uint64_t kept, uint64_t size, uint64_t align);
void rattle_dealloc(uint8_t *block);
"""
FUNCTIONS = header.functions(HEADER)

# Lines that stay as they are.
UNCHANGED = """
; Function Attrs: nounwind
source_filename = "rattle"
!llvm.ident = !{!0}
!0 = !{!"rattle"}
@static.0 = private unnamed_addr constant [3 x i8] c"\\03\\22a", align 1
@static.1 = private unnamed_addr constant [16 x i8] zeroinitializer, align 8
declare void @llvm.trap() #6
define internal noundef i8 @"a::b"(ptr noundef %a0, i64 noundef %a1) #0 {
define internal noundef zeroext i1 @"a::<#1>"(i8 noundef %a0) #0 {
define internal { i8, ptr } @"a::pointer"() #0 {
define internal void @"a::c"(ptr %a0, i1 noundef zeroext %a1) {
start:
join.12:                                          ; preds = %start
  %r0 = add i64 %r1, -5
  %r0 = sub nuw i64 32, %r1
  %r0 = mul nsw i32 %r1, %r2
  %r0 = udiv i8 %r1, 3
  %r0 = srem i64 %r1, %r2
  %r0 = xor i1 %r1, true
  %r0 = shl i64 1, %r1
  %r0 = lshr exact i64 %r1, 2
  %r0 = ashr i32 %r1, 2
  %r0 = or disjoint i64 %r1, 1
  %r0 = icmp ult i64 %r1, 4
  %r0 = icmp eq ptr %r1, null
  %r0 = zext i1 %r1 to i64
  %r0 = trunc nuw i64 %r1 to i8
  %r0 = sext i8 %r1 to i32
  %r0 = select i1 %r1, ptr %r2, ptr @static.0
  %r0 = phi i64 [ 0, %start ], [ %r1, %join.1 ]
  %r0 = extractvalue { i8, ptr } %r1, 1
  %r0 = insertvalue { ptr, i64 } poison, ptr %r1, 0
  %r0 = getelementptr i8, ptr %r1, i64 -8
  %r0 = getelementptr inbounds nuw i8, ptr %r1, i64 %r2
  %r0 = alloca [16 x i8], align 8
  %r0 = alloca i64, align 8
  %r0 = load ptr, ptr %r1, align 8, !noundef !1
  %r0 = load i64, ptr %r1, align 1
  %r0 = load i8, ptr %r1, align 1, !range !2, !noundef !1
  %r0 = load { i64, i8 }, ptr %r1, align 8
  %r0 = call i8 @"a::b"(ptr %r1, i64 8)
  %r0 = call zeroext i1 @"a::<#1>"(i8 %r1)
  %r0 = call { i8, ptr } @"a::pointer"()
  call void @"a::c"(ptr %r0, i1 true) #2
  call void @llvm.trap()
  store i64 %r0, ptr %r1, align 1
  store i128 0, ptr %r1, align 1
  br label %join.1
  br i1 %r0, label %join.1, label %else.2
  switch i8 %r0, label %default.1 [
    i8 0, label %arm.1
  ]
  unreachable
  ret void
  ret i64 %r0
  ret { i8, ptr } %r0
}
"""

# Lines that stop the rewriting, each with what it would do.
STOPPING = {
    "loads a struct within which a struct has a pointer": "  %r0 = load { i8, { ptr, i64 } }, ptr %r1, align 8",
    "loads an array of pointers whole": "  %r0 = load [2 x ptr], ptr %r1, align 8",
    "loads a struct with a pointer, and notes something": "  %r0 = load { i8, ptr }, ptr %r1, align 8, !noundef !1",
    "stores a struct with a pointer whole": "  store { i8, ptr } %r0, ptr %r1, align 8",
    "loads a wide value that it does not return": "  %r0 = load [2 x i64], ptr %r1, align 8",
    "stores a number of 16 bytes": "  store i128 %r0, ptr %r1, align 1",
    "loads a number of 16 bytes": "  %r0 = load i128, ptr %r1, align 1",
    "stores a wide value that no call gave": "  store [2 x i64] %r0, ptr %r1, align 8",
    "returns a wide value that it did not load": "  ret [2 x i64] %r0",
    "a constant that holds a pointer": "@one = private unnamed_addr constant { ptr, i64 } { ptr @two, i64 1 }, align 8",
    "a constant that is an array of pointers": "@one = private unnamed_addr constant [1 x ptr] [ptr @two], align 8",
    "a variable": "@one = internal global [8 x i8] zeroinitializer, align 8",
    "calls through a pointer": "  %r0 = call i8 %r1(ptr %r2)",
    "calls through a pointer for nothing": "  call void %r1(ptr %r2)",
    "passes a function": '  call void @"a::c"(ptr @"a::b")',
    "calls a function that the header lacks": "  call void @abort()",
    "calls a function of C for a number": "  %r0 = call i8 @checksum(ptr %r1, i64 8)",
    "calls a function of C that gives something for nothing": "  call void @checksum(ptr %r1, i64 8)",
    "passes other words to a function of C": "  call void @rattle_dealloc(i64 %r1)",
    "says how the module is to be compiled": "!llvm.module.flags = !{!1}",
    "steps by a type whose size differs": "  %r0 = getelementptr ptr, ptr %r1, i64 1",
    "steps into a struct": "  %r0 = getelementptr { i8, ptr }, ptr %r1, i32 0, i32 1",
    "has room for a struct with a pointer": "  %r0 = alloca { i8, ptr }, align 8",
    "has room for so many bytes": "  %r0 = alloca i8, i64 %r1, align 1",
    "makes a pointer of a number": "  %r0 = inttoptr i64 %r1 to ptr",
    "compares the order of pointers": "  %r0 = icmp ult ptr %r1, %r2",
    "loads a number of 128 bits": "  %r0 = load i128, ptr %r1, align 16",
    "loads a number of 24 bits": "  %r0 = load i24, ptr %r1, align 4",
    "adds fractions": "  %r0 = fadd double %r1, %r2",
    "adds vectors": "  %r0 = add <2 x i64> %r1, %r2",
    "loads what another thread writes": "  %r0 = load atomic i64, ptr %r1 seq_cst, align 8",
    "loads what a device writes": "  %r0 = load volatile i64, ptr %r1, align 8",
    "copies what a device writes": "  call void @llvm.memmove.p0.p0.i64(ptr %r0, ptr %r1, i64 8, i1 true)",
    "another processor": 'target triple = "x86_64-unknown-linux-gnu"',
    "an attribute that is not known": "attributes #0 = { nounwind naked }",
    "declares a function that the header lacks": "declare void @abort() #5",
    "declares a function with other parameters": "declare void @rattle_dealloc(i64 noundef) #5",
    "declares a function with another result": "declare void @rattle_alloc(i64 noundef, i64 noundef) #5",
    "declares a function of C that gives another struct": "declare [2 x i64] @read_packet(ptr noundef, i64 noundef) #5",
    "defines a function that the header lacks": "define void @other() #0 {",
    "defines a function with other parameters": "define noundef i8 @checksum(ptr noundef %a0, i32 noundef %a1) #0 {",
    "defines a function with another result": "define noundef i32 @checksum(ptr noundef %a0, i64 noundef %a1) #0 {",
    "returns a struct of another size": "define i64 @read_packet(ptr noundef %a0, i64 noundef %a1) #0 {",
    "returns a large struct of another size": "define void @receive(ptr sret([40 x i8]) %a0, ptr noundef %a1) #0 {",
    "returns a struct for a number": "define [2 x i64] @number(i64 noundef %a0) #0 {",
    "anything else": "  fence seq_cst",
}


def rewritten(text, processor=ARM):
    return rewrite(text, processor, FUNCTIONS).splitlines()


class Known(unittest.TestCase):
    """Each form that is known."""

    def becomes(self, text, *wanted, processor=ARM):
        self.assertEqual(rewritten(text, processor), list(wanted))

    def test_unchanged(self):
        for line in UNCHANGED.split("\n"):
            with self.subTest(line):
                self.assertEqual(rewritten(line) or [""], [line])

    def test_processor(self):
        for processor in ARM, RISCV:
            self.becomes(
                'target datalayout = "e-m:e-i64:64"\ntarget triple = "aarch64-unknown-linux-gnu"',
                f'target datalayout = "{processor.layout}"',
                f'target triple = "{processor.triple}"',
                *processor.lines,
                processor=processor,
            )

    def test_attributes(self):
        self.becomes(
            'attributes #0 = { noinline nounwind "frame-pointer"="non-leaf" "probe-stack"="inline-asm" '
            '"stack-probe-size"="3072" "target-cpu"="generic" }',
            "attributes #0 = { noinline nounwind optsize }",
        )
        line = "attributes #4 = { nocallback nofree nounwind willreturn memory(argmem: readwrite) }"
        self.becomes(line, line)

    def test_room_for_a_pointer(self):
        self.becomes("  %r0 = alloca ptr, align 8", "  %r0 = alloca [8 x i8], align 8")

    def test_stored_pointer(self):
        for align, upper in ((8, 4), (4, 4), (2, 2), (1, 1)):
            self.becomes(
                f"  store ptr %r0, ptr %r1, align {align}",
                f"  store ptr %r0, ptr %r1, align {align}",
                "  %narrow.1 = getelementptr i8, ptr %r1, i32 4",
                f"  store i32 0, ptr %narrow.1, align {upper}",
            )

    def test_address(self):
        self.becomes("  %r0 = ptrtoaddr ptr %r1 to i64", "  %r0 = ptrtoint ptr %r1 to i64")

    def test_loaded_byte_and_pointer(self):
        self.becomes(
            "  %r0 = load { i8, ptr }, ptr %r1, align 8",
            "  %narrow.1 = load i8, ptr %r1, align 8",
            "  %narrow.2 = insertvalue { i8, ptr } poison, i8 %narrow.1, 0",
            "  %narrow.3 = getelementptr i8, ptr %r1, i32 8",
            "  %narrow.4 = load ptr, ptr %narrow.3, align 8",
            "  %r0 = insertvalue { i8, ptr } %narrow.2, ptr %narrow.4, 1",
        )

    def test_loaded_pointers_and_number(self):
        self.becomes(
            "  %r0 = load { ptr, i32, ptr }, ptr %r1, align 4",
            "  %narrow.1 = load ptr, ptr %r1, align 4",
            "  %narrow.2 = insertvalue { ptr, i32, ptr } poison, ptr %narrow.1, 0",
            "  %narrow.3 = getelementptr i8, ptr %r1, i32 8",
            "  %narrow.4 = load i32, ptr %narrow.3, align 4",
            "  %narrow.5 = insertvalue { ptr, i32, ptr } %narrow.2, i32 %narrow.4, 1",
            "  %narrow.6 = getelementptr i8, ptr %r1, i32 16",
            "  %narrow.7 = load ptr, ptr %narrow.6, align 4",
            "  %r0 = insertvalue { ptr, i32, ptr } %narrow.5, ptr %narrow.7, 2",
        )

    def test_copies(self):
        for what, passed in (
            ("memmove.p0.p0", "ptr %r0, ptr %r1"),
            ("memcpy.p0.p0", "ptr %r0, ptr %r1"),
            ("memset.p0", "ptr %r0, i8 0"),
        ):
            self.becomes(
                f"  call void @llvm.{what}.i64({passed}, i64 12, i1 false)",
                f"  call void @llvm.{what}.i32({passed}, i32 12, i1 false)",
            )
            self.becomes(
                f"  call void @llvm.{what}.i64({passed}, i64 %r2, i1 false)",
                "  %narrow.1 = trunc i64 %r2 to i32",
                f"  call void @llvm.{what}.i32({passed}, i32 %narrow.1, i1 false)",
            )

    def test_declared_copies(self):
        self.becomes(
            "declare void @llvm.memmove.p0.p0.i64(ptr writeonly captures(none), ptr readonly, i64, i1 immarg) #5",
            "declare void @llvm.memmove.p0.p0.i32(ptr writeonly captures(none), ptr readonly, i32, i1 immarg) #5",
        )


class Memory(unittest.TestCase):
    """The functions of C that the library calls."""

    def test_declared(self):
        self.assertEqual(
            rewritten(
                "declare [2 x i64] @rattle_alloc(i64 noundef, i64 noundef) #5\n"
                "declare void @rattle_dealloc(ptr noundef) #5"
            ),
            [
                "declare void @rattle_alloc(ptr sret([16 x i8]) align 8, i64 noundef, i64 noundef) #5",
                "declare void @rattle_dealloc(ptr noundef) #5",
            ],
        )

    def test_block_taken(self):
        self.assertEqual(
            rewritten("  %r0 = call [2 x i64] @rattle_alloc(i64 %a2, i64 8)\n  store [2 x i64] %r0, ptr %a0, align 8"),
            [
                "  call void @rattle_alloc(ptr sret([16 x i8]) align 8 %a0, i64 %a2, i64 8)",
                "  %narrow.1 = getelementptr i8, ptr %a0, i32 12",
                "  store i32 0, ptr %narrow.1, align 4",
            ],
        )

    def test_block_given_back(self):
        line = "  call void @rattle_dealloc(ptr %a1)"
        self.assertEqual(rewritten(line), [line])

    def test_stops(self):
        taken = "  %r0 = call [2 x i64] @rattle_alloc(i64 %a2, i64 8)"
        for following in ("  store [2 x i64] %r1, ptr %a0, align 8", "  ret void"):
            with self.assertRaisesRegex(Unknown, "rattle_alloc"):
                rewritten(f"{taken}\n{following}")
        for call in ("@last_packet()", "@rattle_alloc(i32 8, i64 8)"):
            with self.assertRaisesRegex(Unknown, call.split("(")[0]):
                rewritten(f"  %r0 = call [2 x i64] {call}\n  store [2 x i64] %r0, ptr %a0, align 8")


class Exports(unittest.TestCase):
    """The functions that C calls."""

    def becomes(self, lines, wanted, processor=ARM):
        self.assertEqual(rewritten("\n".join(lines), processor), wanted)

    def test_numbers(self):
        for given, wanted, function in (
            ("noundef i8", "zeroext i8", "@checksum(ptr noundef %a0, i64 noundef %a1)"),
            ("noundef i1", "zeroext i1", "@is_good(i8 noundef %a0)"),
            ("noundef zeroext i1", "zeroext i1", "@is_good(i8 noundef %a0)"),
            ("noundef i16", "zeroext i16", "@half()"),
            ("noundef i32", "i32", "@count(i32 noundef %a0)"),
            ("noundef i64", "i64", "@number(i64 noundef %a0)"),
            ("void", "void", "@forget(ptr noundef %a0)"),
        ):
            for processor in ARM, RISCV:
                self.becomes([f"define {given} {function} #0 {{"], [f"define {wanted} {function} #0 {{"], processor)

    def test_small_struct(self):
        for processor in ARM, RISCV:
            self.becomes(
                ["define i16 @read_pair(ptr noundef %a0) #0 {", "  ret i16 %r1", "}"],
                ["define zeroext i16 @read_pair(ptr noundef %a0) #0 {", "  ret i16 %r1", "}"],
                processor,
            )

    def test_large_struct(self):
        line = "define void @receive(ptr noundef sret([48 x i8]) %a0, ptr noundef %a1) #0 {"
        self.becomes([line, "  ret void", "}"], [line, "  ret void", "}"])

    def test_struct_of_eight_bytes(self):
        lines = ["  %r1 = load i64, ptr %r0, align 4", "  ret i64 %r1", "}"]
        kept = ["define i64 @read_frame(ptr noundef %a0) #0 {", *lines]
        self.becomes(kept, kept, RISCV)
        self.becomes(
            kept,
            [
                "define void @read_frame(ptr sret([8 x i8]) %narrow.out, ptr noundef %a0) #0 {",
                "  %narrow.1 = load i32, ptr %r0, align 4",
                "  store i32 %narrow.1, ptr %narrow.out, align 4",
                "  %narrow.2 = getelementptr i8, ptr %r0, i32 4",
                "  %narrow.3 = getelementptr i8, ptr %narrow.out, i32 4",
                "  %narrow.4 = load i32, ptr %narrow.2, align 4",
                "  store i32 %narrow.4, ptr %narrow.3, align 4",
                "  ret void",
                "}",
            ],
        )

    def stored(self, function, align, processor=ARM):
        """What is stored of a wide struct: the words, where each lies, and how that place is aligned."""
        lines = [function, f"  %r1 = load [2 x i64], ptr %r0, align {align}", "  ret [2 x i64] %r1", "}"]
        made = rewritten("\n".join(lines), processor)
        offsets = {"%narrow.out": 0}
        stored = []
        for line in made[1:-2]:
            words = line.replace(",", "").split()
            if "getelementptr" in words and "%narrow.out" in words:
                offsets[words[0]] = int(words[-1])
            elif words[0] == "store":
                stored.append((words[1], offsets[words[4]], int(words[6])))
        self.assertEqual(made[-2:], ["  ret void", "}"])
        return made[0], stored

    def test_struct_of_twelve_bytes(self):
        """A caller has room for 12 bytes, so no more are written."""
        function = "define [2 x i64] @read_packet(ptr noundef %a0, i64 noundef %a1) #0 {"
        for processor in ARM, RISCV:
            first, stored = self.stored(function, 4, processor)
            self.assertIn("void @read_packet(ptr sret([12 x i8]) %narrow.out, ptr noundef %a0, i64 ", first)
            self.assertEqual(stored, [("i32", 0, 4), ("i32", 4, 4), ("i32", 8, 4)])
        self.assertEqual(self.stored(function, 8)[1], [("i64", 0, 8), ("i32", 8, 8)])

    def test_struct_of_sixteen_bytes(self):
        first, stored = self.stored("define [2 x i64] @open_one(i64 noundef %a0) #0 {", 8)
        self.assertEqual(first, "define void @open_one(ptr sret([16 x i8]) %narrow.out, i64 noundef %a0) #0 {")
        self.assertEqual(stored, [("i64", 0, 8), ("i64", 8, 8)])

    def test_struct_without_parameters(self):
        first, stored = self.stored("define [2 x i64] @last_packet() #0 {", 1)
        self.assertEqual(first, "define void @last_packet(ptr sret([12 x i8]) %narrow.out) #0 {")
        self.assertEqual(stored, [("i8", offset, 1) for offset in range(12)])

    def test_function_after_it(self):
        """The next function returns its number as ever."""
        lines = ["define i64 @read_frame(ptr noundef %a0) #0 {", "  %r1 = load i64, ptr %r0, align 4", "  ret i64 %r1"]
        after = ["}", 'define internal noundef i64 @"a::b"() #0 {', "  ret i64 %r0", "}"]
        self.assertEqual(rewritten("\n".join(lines + after))[-4:], after)

    def test_struct_that_was_not_loaded(self):
        with self.assertRaisesRegex(Unknown, "ret i64 %r1"):
            rewritten("define i64 @read_frame(ptr noundef %a0) #0 {\n  ret i64 %r1")
        with self.assertRaisesRegex(Unknown, "load"):
            rewritten("  %r1 = load [2 x i64], ptr %r0, align 8\n  ret [2 x i64] %r1")


class Stops(unittest.TestCase):
    """What is not known stops the rewriting with its text."""

    def test_lines(self):
        for what, line in STOPPING.items():
            with self.subTest(what):
                with self.assertRaises(Unknown) as stopped:
                    rewritten(f"start:\n{line}\n  ret void")
                self.assertIn(line.strip(), str(stopped.exception))

    def test_names(self):
        with self.assertRaises(Unknown):
            rewritten("  %narrow.1 = add i64 %r1, 1")

    def test_layouts(self):
        for layout in (
            "E-m:e-p:32:32-Fi8-i64:64-v128:64:128-a:0:32-n32-S64",  # big-endian
            "e-m:e-p:32:32-p270:32:32-i64:32-i128:128-n8:16:32-S128",  # i64 aligned to 4
            "e-m:e-p:32:32-f64:32:64-n8:16:32-S128",  # i64 aligned as LLVM has it where nothing is said
            "e-m:e-i8:8:32-i64:64-i128:128-n32:64-S128",  # addresses of 64 bits
        ):
            with self.subTest(layout), self.assertRaisesRegex(Unknown, layout):
                rewritten("", Processor(layout, "a-processor", 4, [], []))


class Header(unittest.TestCase):
    """What is read of a header."""

    def test_functions(self):
        self.assertEqual(FUNCTIONS["checksum"], header.Function(["ptr", "i64"], "i8", None))
        self.assertEqual(FUNCTIONS["half"], header.Function([], "i16", None))
        self.assertEqual(FUNCTIONS["read_packet"], header.Function(["ptr", "i64"], None, 12))
        self.assertEqual(FUNCTIONS["receive"], header.Function(["ptr"], None, 48))

    def test_stops(self):
        for text in ("void f(size_t length);", "int f(void);", "void f(struct step step);", "void f(uint8_t a, void);"):
            with self.subTest(text), self.assertRaises(header.HeaderFault):
                header.functions(text)


if __name__ == "__main__":
    unittest.main()
