#!/usr/bin/env python3
"""Writes a formula and a proof of a size: `inputs.py KIND SIZE FORMULA PROOF`. The same words give the same formula.

KIND    random   random 3-SAT over SIZE variables, 4.8 clauses for each
        chain    a chain of SIZE implications, which every clause of a small random formula hangs on
        huge     SIZE implications in a chain, 7 clauses for each that are easy to satisfy, and a small random formula
        holes    the pigeonhole formula for SIZE holes and its proof by swaps, in text, by `sr demo`

But for `holes` the proof is CaDiCaL's, in DRAT, binary.
"""
import os
import random
import subprocess
import sys

TOP = os.path.dirname(os.path.dirname(os.path.abspath(__file__)))


def some_clauses(count, width, first, variables):
    """Random clauses over so many variables, of which `first` is the lowest."""
    for _ in range(count):
        chosen = random.sample(range(first, first + variables), width)
        yield [v if random.random() < 0.5 else -v for v in chosen]


def a_random(size):
    return list(some_clauses(int(4.8 * size), 3, 1, size))


def a_chain(size):
    hard = list(some_clauses(860, 3, size + 2, 180))
    # each clause of the hard part waits for some place of the chain
    hard = [[-random.randint(1, size + 1), *clause] for clause in hard]
    return [[1]] + [[-v, v + 1] for v in range(1, size + 1)] + hard


def a_huge(size):
    easy = list(some_clauses(7 * size, 4, 200, size))
    hard = list(some_clauses(590, 3, 1, 120))
    first = size + 200
    chain = [[first]] + [[-v, v + 1] for v in range(first, first + size)]
    return hard + chain + easy


KINDS = {"random": a_random, "chain": a_chain, "huge": a_huge, "holes": None}


def main():
    if len(sys.argv) != 5 or sys.argv[1] not in KINDS:
        sys.exit(__doc__)
    kind, size, formula, proof = sys.argv[1], int(sys.argv[2]), sys.argv[3], sys.argv[4]
    if kind == "holes":
        sr = f"{TOP}/crates/sr/out/sr"
        subprocess.run([sr, "demo", str(size), "--formula", formula, "--proof", proof], check=True, stdout=subprocess.DEVNULL)
        return
    random.seed(size)
    clauses = KINDS[kind](size)
    most = max(abs(l) for c in clauses for l in c)
    with open(formula, "w") as out:
        out.write(f"p cnf {most} {len(clauses)}\n")
        out.writelines(" ".join(map(str, c)) + " 0\n" for c in clauses)
    ran = subprocess.run(["cadical", "-q", formula, proof], stdout=subprocess.DEVNULL)
    if ran.returncode != 20:
        sys.exit(f"{kind} {size}: the solver doesn't answer unsatisfiable")


main()
