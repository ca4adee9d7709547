#!/usr/bin/env python3
"""Refuses each allocation, and each call of the system on a file, of `sr trim` and `sr check` in turn: `faults.py [PROGRAM]`, by default
the built crates/sr/out/sr. It needs a C compiler. The inputs are small ones of each family: lemmas by propagation and with witnesses,
pigeonholes, and those of bench/hostile.py.

Each run has to answer as with ample memory; or, where an allocation was refused, end with the status 7 and print nothing, and no
output is begun; or answer a fault of a file (5 or 6), and then what stands in the outputs is a prefix, and nothing in all of them
where the fault is one of reading.
"""
import os
import subprocess
import sys
import tempfile
from collections import Counter

TOP = os.path.dirname(os.path.dirname(os.path.abspath(__file__)))
sys.dont_write_bytecode = True
sys.path.insert(0, f"{TOP}/bench")

# The n-th call of one of these functions fails once; how many there were is written at the end.
REFUSING = r"""
#define _GNU_SOURCE
#include <dlfcn.h>
#include <errno.h>
#include <fcntl.h>
#include <stdarg.h>
#include <stdio.h>
#include <stdlib.h>
#include <stddef.h>
#include <sys/uio.h>
#include <unistd.h>
extern void *__libc_malloc(size_t), *__libc_calloc(size_t, size_t), *__libc_realloc(void *, size_t);
static long calls, refused = -1;
static int memory, counting;
static int refuses(int of_memory) { return counting && of_memory == memory && ++calls == refused; }
void *malloc(size_t n) { return refuses(1) ? NULL : __libc_malloc(n); }
void *calloc(size_t n, size_t m) { return refuses(1) ? NULL : __libc_calloc(n, m); }
void *realloc(void *p, size_t n) { return refuses(1) ? NULL : __libc_realloc(p, n); }
#define REAL(name) ((__typeof__(name) *)dlsym(RTLD_NEXT, #name))
#define FAILS(name, ...) { if (refuses(0)) { errno = EIO; return -1; } return REAL(name)(__VA_ARGS__); }
ssize_t read(int f, void *p, size_t n) FAILS(read, f, p, n)
ssize_t readv(int f, const struct iovec *p, int n) FAILS(readv, f, p, n)
ssize_t write(int f, const void *p, size_t n) FAILS(write, f, p, n)
ssize_t writev(int f, const struct iovec *p, int n) FAILS(writev, f, p, n)
int close(int f) FAILS(close, f)
int openat(int d, const char *name, int flags, ...) {
    va_list more;
    va_start(more, flags);
    mode_t mode = va_arg(more, mode_t);
    va_end(more);
    if (refuses(0)) { errno = EIO; return -1; }
    return REAL(openat)(d, name, flags, mode);
}
int open(const char *name, int flags, ...) {
    va_list more;
    va_start(more, flags);
    mode_t mode = va_arg(more, mode_t);
    va_end(more);
    if (refuses(0)) { errno = EIO; return -1; }
    return REAL(open)(name, flags, mode);
}
__attribute__((constructor)) static void begin(void) {
    refused = atol(getenv("REFUSED"));
    memory = getenv("MEMORY")[0] == '1';
    calls = 0;
    counting = 1;
}
__attribute__((destructor)) static void end(void) {
    counting = 0;
    FILE *f = fopen(getenv("CALLS"), "w");
    if (f) { fprintf(f, "%ld", calls); fclose(f); }
}
"""

FOUR = "p cnf 2 4\n1 2 0\n-1 2 0\n1 -2 0\n-1 -2 0\n"


def read_text(path):
    with open(path) as it:
        return it.read()


def hostile(kind, size):
    import hostile as made

    clauses, proof = {k.__name__: k for k in made.KINDS}[kind](size)
    most = max(abs(l) for c in clauses for l in c)
    lines = [" ".join(map(str, c)) for c in clauses]
    return (f"p cnf {most} {len(clauses)}\n" + "".join(l + " 0\n" for l in lines), "".join(l + " 0\n" for l in proof))


def holes(program, count):
    with tempfile.TemporaryDirectory() as folder:
        words = [program, "demo", str(count), "--formula", f"{folder}/f", "--proof", f"{folder}/p"]
        subprocess.run(words, check=True, stdout=subprocess.DEVNULL)
        return read_text(f"{folder}/f"), read_text(f"{folder}/p")


def cases(program):
    yield "a lemma by propagation", (FOUR, "2 0\n0\n")
    yield "a lemma with a witness", (read_text(f"{TOP}/examples/six.cnf"), read_text(f"{TOP}/examples/six.dsr"))
    yield "a solver's proof", (read_text(f"{TOP}/examples/random.cnf"), read_text(f"{TOP}/examples/random.drat"))
    yield "pigeonholes", holes(program, 3)
    for kind in ("units", "reasons", "copies", "shared", "long", "chained", "groups", "moved"):
        yield kind, hostile(kind, 6)


def contents(path):
    if not os.path.exists(path):
        return None
    with open(path, "rb") as it:
        return it.read()


def run(program, library, words, files, refused, memory):
    """The number of calls, the status, what was printed, and the two outputs."""
    with tempfile.TemporaryDirectory() as folder:
        for name, text in files.items():
            with open(f"{folder}/{name}", "wb") as it:
                it.write(text)
        env = {"LD_PRELOAD": library, "REFUSED": str(refused), "MEMORY": str(int(memory)), "CALLS": f"{folder}/calls"}
        ran = subprocess.run([program, *words], cwd=folder, env=env, capture_output=True, timeout=60)
        calls = int(contents(f"{folder}/calls") or 0)
        return calls, (ran.returncode, ran.stdout, contents(f"{folder}/l"), contents(f"{folder}/k"))


def is_prefix(part, whole):
    return part is None or whole.startswith(part)


def is_allowed(got, whole, memory):
    status, printed, lsr, core = got
    if status == 7:
        return memory and not printed and (lsr, core) == (None, None)
    if status == 5:
        last = printed.splitlines()[-1] if printed else b""
        return last in (b"e source formula", b"e source proof") and (lsr, core) == (None, None)
    if status == 6:
        return whole[1].startswith(printed) and is_prefix(lsr, whole[2]) and is_prefix(core, whole[3])
    # where the system doesn't hand out the words
    if status == 9:
        return not printed and (lsr, core) == (None, None)
    return got == whole


def refuse_each(program, library, name, words, files):
    """Refuses each call in turn, prints what came of it, and says what isn't allowed; gives the outcome of the run without a refusal."""
    bad = 0
    for memory in (True, False):
        calls, whole = run(program, library, words, files, -1, memory)
        if whole[0] != 0:
            sys.exit(f"{name}: status {whole[0]} without a refusal")
        seen = Counter()
        for refused in range(1, calls + 1):
            _, got = run(program, library, words, files, refused, memory)
            seen[got[0]] += 1
            if not is_allowed(got, whole, memory):
                bad += 1
                print(f"{name}: call {refused} refused: {got}")
        kind = "allocations" if memory else "calls on files"
        print(f"{name}: {words[0]}: {calls} {kind}, statuses {dict(sorted(seen.items()))}", flush=True)
    return bad, whole


def main():
    program = os.path.abspath(sys.argv[1] if len(sys.argv) > 1 else f"{TOP}/crates/sr/out/sr")
    bad = 0
    with tempfile.TemporaryDirectory() as folder:
        library = f"{folder}/refusing.so"
        cc = ["cc", "-O1", "-shared", "-fPIC", "-x", "c", "-", "-o", library, "-ldl"]
        subprocess.run(cc, input=REFUSING, text=True, check=True)
        for name, (formula, proof) in cases(program):
            files = {"f": formula.encode(), "p": proof.encode()}
            trim = ["trim", "f", "p", "--lsr", "l", "--core", "k", "--stats"]
            found, whole = refuse_each(program, library, name, trim, files)
            bad += found
            files = {"f": formula.encode(), "q": whole[2]}
            found, _ = refuse_each(program, library, name, ["check", "f", "q", "--stats"], files)
            bad += found
    sys.exit(1 if bad else 0)


main()
