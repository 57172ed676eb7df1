"""A program with a library of the test before the C library, which stands between the two."""
import os
import subprocess
import tempfile

from support.programs import SECONDS

TOLD_AT = 9  # the number of the file that the library writes to

# A library that refuses growths of memory by their numbers from 1 on; for each that it refuses it writes a byte.
REFUSING = """
#define _GNU_SOURCE
#include <dlfcn.h>
#include <stdlib.h>
#include <unistd.h>

static long seen, first, last;

__attribute__((constructor)) static void begin(void) {
    first = atol(getenv("REFUSED_FIRST"));
    last = atol(getenv("REFUSED_LAST"));
}

static int is_refused(void) {
    seen++;
    if (!first || seen < first || seen > last) return 0;
    if (write(TOLD_AT, "x", 1) < 0) abort();
    return 1;
}

void *malloc(size_t size) {
    static void *(*real)(size_t);
    if (!real) real = dlsym(RTLD_NEXT, "malloc");
    return is_refused() ? 0 : real(size);
}

void *realloc(void *block, size_t size) {
    static void *(*real)(void *, size_t);
    if (!real) real = dlsym(RTLD_NEXT, "realloc");
    return is_refused() ? 0 : real(block, size);
}
"""


def growths_refused(first, last):
    """The variables by which that library refuses the growths of these numbers; none for 0."""
    return {"REFUSED_FIRST": str(first), "REFUSED_LAST": str(last)}


class Preloaded:
    """A program, and such a library."""

    def __init__(self, program, source, folder):
        """Makes the library of this source text, in the folder, with the C compiler in $CC, else `cc`."""
        self.program = os.path.abspath(program)
        self.library = os.path.join(folder, "library.so")
        text = os.path.join(folder, "library.c")
        with open(text, "w") as file:
            file.write(source)
        how = ["-O1", "-shared", "-fPIC", f"-DTOLD_AT={TOLD_AT}"]
        subprocess.run([os.environ.get("CC", "cc"), *how, text, "-o", self.library, "-ldl"], check=True)

    def how(self, told, variables=None):
        """How a process is started that the library stands in: its environment has these variables alone, and what the
        library writes goes to the file `told`."""
        def begin():
            os.dup2(told.fileno(), TOLD_AT)
            os.set_inheritable(TOLD_AT, True)  # where both numbers are the same

        return {"env": {"LD_PRELOAD": self.library, **(variables or {})}, "close_fds": False, "preexec_fn": begin}

    def run(self, words, variables=None, seconds=SECONDS, **how):
        """How a run ended, and the bytes that the library wrote."""
        with tempfile.TemporaryFile() as told:
            how = {**self.how(told, variables), "capture_output": True, "timeout": seconds, **how}
            ran = subprocess.run([self.program, *words], **how)
            told.seek(0)
            return ran, told.read()
