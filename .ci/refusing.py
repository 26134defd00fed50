"""Runs in which one call for memory is refused, for the checks of this folder; run by none.

A program's calls for memory are counted by a small library in C, which is compiled here by the toolchain's
compiler and loaded before the program's own.
"""
import os
import shutil
import subprocess
import sys

# The call of this number is refused, and a byte is then written to this file.
LIBRARY = """
typedef unsigned long size_t;
void *__libc_malloc(size_t size);
void *__libc_realloc(void *old, size_t size);
char *getenv(const char *name);
long atol(const char *text);
long write(int file, const void *bytes, size_t count);
void abort(void);
static long left;
__attribute__((constructor)) static void start(void) {
    const char *number = getenv("REFUSED");
    left = number ? atol(number) : 0;
}
static int refused(void) {
    if (left <= 0 || __atomic_sub_fetch(&left, 1, __ATOMIC_SEQ_CST) != 0) return 0;
    if (write(atol(getenv("REFUSED_FILE")), "x", 1) != 1) abort();
    return 1;
}
void *malloc(size_t size) { return refused() ? (void *)0 : __libc_malloc(size); }
void *realloc(void *old, size_t size) { return refused() ? (void *)0 : __libc_realloc(old, size); }
"""


def compiler():
    """The compiler of the toolchain, beside its command."""
    command = shutil.which("rt")
    if command is None:
        sys.exit("the toolchain's command 'rt' is not on the path")
    kit = os.path.dirname(os.path.dirname(os.path.realpath(command)))
    return os.path.join(kit, "toolchain", "bin", "clang")


def compiled(folder):
    """The path of the library, which is put into a folder."""
    source, library = os.path.join(folder, "refuse.c"), os.path.join(folder, "refuse.so")
    with open(source, "w", encoding="utf-8") as file:
        file.write(LIBRARY)
    flags = ["-shared", "-fPIC", "-O1", "-nostdlib", "-fuse-ld=lld", "-o", library]
    subprocess.run([compiler(), *flags, source], check=True)
    return library


def run(command, library, number, capture=subprocess.DEVNULL):
    """The exit status, the notices, what is written, and whether a call was refused."""
    read, write = os.pipe()
    environment = dict(os.environ, LD_PRELOAD=library, REFUSED=str(number), REFUSED_FILE=str(write))
    done = subprocess.run(
        command, stdin=capture, capture_output=True, env=environment, pass_fds=[write], timeout=60
    )
    os.close(write)
    refused = os.read(read, 1) == b"x"
    os.close(read)
    return done.returncode, done.stderr, done.stdout, refused
