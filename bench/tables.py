#!/usr/bin/env python3
"""Repeats a table of docs/BENCHMARKS.md and prints it: `tables.py TABLE [--other COMMAND] [--inputs FOLDER] [--runs N]`.

TABLE     trim      `sr trim` on each NAME.cnf and NAME.bin (a proof in binary) of FOLDER; what is written is text
          check     `sr check` on what `sr trim` writes of these, in text and in binary
          load      `sr trim` on these proofs cut short before the conflict: loading alone
          growth    `sr trim` on inputs that double (bench/inputs.py makes them; CaDiCaL has to be there)
          hostile   `sr trim` on the inputs of bench/hostile.py, each at two sizes
          million   `sr trim` alone on those of them that grow as their size does, at a million
          demo      `sr demo N` for rising N
          copy      `sr_copy` on the proofs of FOLDER and on what `sr trim` writes of them: reading alone (items), and reading and
                    writing again; build it first, with `cd crates/sr_copy && rt run -- lsr text items data/p`
COMMAND   another program that takes the words that `sr` takes; without it the columns of the other program are left out
FOLDER    the inputs of `trim`, `check`, `load` and `copy`
N         the best of so many runs of both programs in turn (5)

Seconds are user and system seconds together, and memory is the peak. Build `sr` first, with `./sr`.
"""
import argparse
import os
import subprocess
import sys
import tempfile

TOP = os.path.dirname(os.path.dirname(os.path.abspath(__file__)))
SR = f"{TOP}/crates/sr/out/sr"


def run(words):
    """Seconds, megabytes and the last line of one run. GNU time measures the memory, which would else be at least Python's own."""
    with tempfile.NamedTemporaryFile() as peak, tempfile.TemporaryFile() as out:
        started = subprocess.Popen(["/usr/bin/time", "-q", "-f", "%M", "-o", peak.name, *words], stdout=out)
        _, status, used = os.wait4(started.pid, 0)
        started.returncode = os.waitstatus_to_exitcode(status)
        memory = int(peak.read().split()[-1]) / 1024
        out.seek(max(0, out.seek(0, 2) - 1000))
        lines = out.read().decode(errors="replace").splitlines()
    last = lines[-1] if lines else f"status {started.returncode}"
    return used.ru_utime + used.ru_stime, memory, last


def best(programs, words, runs):
    """For each program the least seconds and memory of so many runs in turn, and the last line."""
    seen = [[] for _ in programs]
    for _ in range(runs):
        for got, program in zip(seen, programs):
            got.append(run([program, *words]))
    return [(min(s for s, _, _ in got), min(m for _, m, _ in got), got[-1][2]) for got in seen]


def row(name, results, extra=()):
    """A line of a table: for each program seconds and memory, and the ratios of the first program to the second."""
    cells = [name, *extra]
    for seconds, memory, _ in results:
        cells += [f"{seconds:.3f} s", f"{memory:.1f} MB"]
    if len(results) == 2:
        (s, m, _), (t, n, _) = results
        cells += [f"{s / max(t, 0.0005):.2f}", f"{m / n:.2f}"]
    cells.append(results[0][2])
    print("| " + " | ".join(cells) + " |", flush=True)


def heading(first, programs, extra=()):
    cells = [first, *extra, "sr", "memory"]
    if len(programs) == 2:
        cells += ["other", "memory", "ratio", "memory"]
    cells.append("sr answers")
    print("| " + " | ".join(cells) + " |")
    print("|" + "---|" * len(cells), flush=True)


def inputs(folder):
    """The names of the inputs, the smallest proof first."""
    if folder is None:
        sys.exit("name the folder of the inputs with --inputs")
    names = [n[:-4] for n in os.listdir(folder) if n.endswith(".cnf") and os.path.exists(f"{folder}/{n[:-4]}.bin")]
    return sorted(names, key=lambda n: os.path.getsize(f"{folder}/{n}.bin"))


def trim(given, programs, scratch):
    heading("Input", programs)
    for name in inputs(given.inputs):
        files = [f"{given.inputs}/{name}.cnf", f"{given.inputs}/{name}.bin"]
        row(name, best(programs, ["trim", *files, "--proof-form", "binary", "--lsr", f"{scratch}/lsr"], given.runs))


def check(given, programs, scratch):
    heading("Input", programs, ["form"])
    for name in inputs(given.inputs):
        formula = f"{given.inputs}/{name}.cnf"
        for form in ("text", "binary"):
            trimmed = ["trim", formula, f"{given.inputs}/{name}.bin", "--proof-form", "binary"]
            run([SR, *trimmed, "--lsr", f"{scratch}/lsr", "--lsr-form", form])
            row(name, best(programs, ["check", formula, f"{scratch}/lsr", "--proof-form", form], given.runs), [form])


def lines_of(proof):
    """The places behind the lines of a proof in binary."""
    at = 0
    while at < len(proof):
        at += 1
        while proof[at] != 0:
            while proof[at] >= 128:
                at += 1
            at += 1
        at += 1
        yield at


def load(given, programs, scratch):
    heading("Input", programs, ["lines"])
    for name in inputs(given.inputs):
        formula = f"{given.inputs}/{name}.cnf"
        with open(f"{given.inputs}/{name}.bin", "rb") as it:
            proof = it.read()
        ends = [0, *lines_of(proof)]
        # the most lines after which there is no conflict yet
        low, high = 0, len(ends)
        while high - low > 1:
            middle = (low + high) // 2
            with open(f"{scratch}/p", "wb") as it:
                it.write(proof[: ends[middle]])
            _, _, last = run([SR, "trim", formula, f"{scratch}/p", "--proof-form", "binary"])
            if last == "s NO EMPTY CLAUSE":
                low = middle
            else:
                high = middle
        with open(f"{scratch}/p", "wb") as it:
            it.write(proof[: ends[low]])
        row(name, best(programs, ["trim", formula, f"{scratch}/p", "--proof-form", "binary"], given.runs), [str(low)])


def growth(given, programs, scratch):
    heading("Input", programs, ["size"])
    kinds = {"chain": (20000, 40000, 80000), "huge": (12500, 25000, 50000), "holes": (30, 38, 48, 60)}
    for kind, sizes in kinds.items():
        for size in sizes:
            files = [f"{scratch}/f", f"{scratch}/p"]
            subprocess.run([f"{TOP}/bench/inputs.py", kind, str(size), *files], check=True)
            form = "text" if kind == "holes" else "binary"
            words = ["trim", *files, "--proof-form", form, "--lsr", f"{scratch}/lsr"]
            row(kind, best(programs, words, given.runs), [str(size)])


def hostile(given, programs, scratch):
    heading("Kind", programs, ["size"])
    large = ["units", "reasons", "copies", "shared", "shared_newest", "long"]
    small = ["chained", "groups", "moved"]
    sums = ["one_bucket", "one_sum"]
    for kind, size in [(k, 200000) for k in large] + [(k, 10000) for k in small] + [(k, 80000) for k in sums]:
        for size in (size // 2, size):
            files = [f"{scratch}/f", f"{scratch}/p"]
            subprocess.run([f"{TOP}/bench/hostile.py", kind, str(size), *files], check=True)
            row(kind, best(programs, ["trim", *files, "--lsr", f"{scratch}/lsr"], given.runs), [str(size)])


def million(given, programs, scratch):
    heading("Kind", programs[:1])
    for kind in ("units", "reasons", "copies", "shared", "shared_newest", "long", "groups", "moved"):
        files = [f"{scratch}/f", f"{scratch}/p"]
        subprocess.run([f"{TOP}/bench/hostile.py", kind, "1000000", *files], check=True)
        row(kind, best(programs[:1], ["trim", *files, "--lsr", f"{scratch}/lsr"], given.runs))


def demo(given, programs, scratch):
    heading("Command", programs[:1])
    for holes in (10, 20, 30, 40, 50, 60):
        row(f"demo {holes}", best(programs[:1], ["demo", str(holes)], given.runs))


def copy(given, programs, scratch):
    program = f"{TOP}/crates/sr_copy/out/sr_copy"
    print("| Proof | kind | from | to | sr_copy | memory |")
    print("|" + "---|" * 6, flush=True)
    for name in inputs(given.inputs):
        formula, lemmas = f"{given.inputs}/{name}.cnf", f"{given.inputs}/{name}.bin"
        files = {("dsr", "binary"): lemmas}
        for form in ("text", "binary"):
            files["lsr", form] = f"{scratch}/{form}"
            run([SR, "trim", formula, lemmas, "--proof-form", "binary", "--lsr", f"{scratch}/{form}", "--lsr-form", form])
        for (kind, form), file in files.items():
            for to in ("items", form):
                ((seconds, memory, _),) = best([program], [kind, form, to, file], given.runs)
                print(f"| {name} | {kind} | {form} | {to} | {seconds:.3f} s | {memory:.1f} MB |", flush=True)


TABLES = {it.__name__: it for it in (trim, check, load, growth, hostile, million, demo, copy)}


def main():
    parser = argparse.ArgumentParser(description=__doc__, formatter_class=argparse.RawDescriptionHelpFormatter)
    parser.add_argument("table", choices=TABLES)
    parser.add_argument("--other")
    parser.add_argument("--inputs")
    parser.add_argument("--runs", type=int, default=5)
    given = parser.parse_args()
    if not os.access(SR, os.X_OK):
        sys.exit("build sr first: ./sr")
    programs = [SR] + ([given.other] if given.other else [])
    with tempfile.TemporaryDirectory() as scratch:
        TABLES[given.table](given, programs, scratch)


main()
