#!/usr/bin/env python3
"""Writes a formula and a proof that are hard on a trimmer: `hostile.py KIND SIZE FORMULA PROOF`. The proof is DRAT or DSR in text."""
import sys


def write(path, lines):
    with open(path, "w") as out:
        out.writelines(line + " 0\n" for line in lines)


def write_formula(path, clauses):
    most = max(abs(l) for c in clauses for l in c)
    with open(path, "w") as out:
        out.write(f"p cnf {most} {len(clauses)}\n")
        out.writelines(" ".join(map(str, c)) + " 0\n" for c in clauses)


# a small contradiction over the variables 1 and 2, which needs a lemma
CORE = [[1, 2], [1, -2], [-1, 2], [-1, -2]]


def units(n):
    """n unit lemmas that follow from a chain of implications; each is deleted again."""
    clauses = CORE + [[3]] + [[-v, v + 1] for v in range(3, n + 3)]
    proof = []
    for v in range(4, n + 4):
        proof += [f"{v}", f"d {v}"]
    return clauses, proof + ["1"]


def reasons(n):
    """n unit lemmas that follow from a chain of implications; the implications are deleted."""
    clauses = CORE + [[3]] + [[-v, v + 1] for v in range(3, n + 3)]
    proof = [f"{v}" for v in range(4, n + 4)]
    proof += [f"d -{v} {v + 1}" for v in range(3, n + 3)]
    return clauses, proof + ["1"]


def copies(n):
    """One clause n times as a lemma, and then n times deleted."""
    return CORE, ["1 2"] * n + ["d 1 2"] * n + ["1"]


def shared(n):
    """n clauses that share a literal, deleted from the oldest to the newest."""
    clauses = CORE + [[3, v] for v in range(4, n + 4)]
    return clauses, [f"d 3 {v}" for v in range(4, n + 4)] + ["1"]


def shared_newest(n):
    """The same, from the newest to the oldest."""
    clauses, proof = shared(n)
    return clauses, proof[-2::-1] + proof[-1:]


def long(n):
    """A lemma of n literals."""
    return CORE + [[3]], [" ".join(map(str, range(3, n + 3))), "1"]


def hidden(literals):
    """Clauses over the variables 1 and 2 that conflict after the lemma 1, where the literals are false."""
    return [literals + c for c in CORE]


def chained(n):
    """n lemmas, each cited by the next; the clause that each stands on is deleted."""
    x = list(range(3, n + 4))
    clauses = [[-x[i], x[i + 1]] for i in range(n)] + [[-x[n]]] + hidden([x[0]])
    proof = []
    for i in range(1, n):
        proof += [f"-{x[0]} {x[i + 1]}", f"d -{x[i]} {x[i + 1]}"]
        if i > 1:
            proof.append(f"d -{x[0]} {x[i]}")
    return clauses, proof + ["1"]


def groups(n):
    """A lemma whose witness touches n clauses, each of which needs a group."""
    v = list(range(4, n + 4))
    w = n + 4
    clauses = [[3, l] for l in v] + [[-3, l] for l in v] + [[-l for l in v] + [w]] + hidden([-w])
    return clauses, ["-3 -3", "1"]


def moved(n):
    """The same, and the witness moves n variables."""
    clauses, _ = groups(n)
    maps = " ".join(f"{v} {v + 1} {v + 1} {v}" for v in range(4, n + 3, 2))
    return clauses, [f"-3 -3 -3 {maps}", "1"]


def mixed(v):
    """What a variable adds to the first of the two sums that make the hash of a clause."""
    x = 2 * v * 0x9E3779B97F4A7C15 % 2**64
    y = (x ^ x >> 32) * 0xD6E8FEB86659FD93 % 2**64
    return y ^ y >> 32


def one_bucket(n):
    """n clauses of two literals whose first sums are the same modulo the number of clauses and one, deleted."""
    count = n + len(CORE) + 1
    by_rest = {}
    found = []
    for v in range(3, 2 * n + 3):
        m = mixed(v)
        for over in 0, 2**64:
            found += [[w, v] for w, k in by_rest.get((5 + over - m) % count, []) if (2 + k + m >= 2**64) == (over > 0)]
        by_rest.setdefault(m % count, []).append((v, m))
        if len(found) >= n:
            break
    return CORE + found[:n], [f"d {w} {v}" for w, v in found[:n]] + ["1"]


# four variables each, of which the first two add as much to the first sum as the last two
EQUAL_SUMS = [
    (199353, 129176, 47449, 56709), (248152, 104262, 139095, 81341), (204286, 135102, 219670, 15391),
    (245281, 249577, 154686, 249945), (6890, 241352, 17863, 125591), (256741, 171175, 262005, 112661),
    (205142, 156034, 71890, 182519), (193534, 211722, 259733, 193914), (245235, 101144, 167659, 39474),
    (133362, 141323, 239582, 75014), (193412, 227635, 195038, 210761), (111382, 236673, 151102, 220303),
    (105926, 99534, 39890, 224520), (248403, 27461, 144438, 148782), (102511, 193021, 106472, 242361), (137022, 168726, 8575, 14310),
    (114120, 216329, 175057, 44913), (202483, 118777, 188205, 129210), (48713, 50313, 175393, 71205), (63915, 32090, 39214, 83869),
    (33704, 217356, 230904, 151258), (114782, 243006, 31131, 210020),
]


def one_sum(n):
    """n clauses, 2^22 at most, that have one first sum, deleted: each has one half of each of the fours."""
    fours = EQUAL_SUMS[: max(1, (n - 1).bit_length())]
    clauses = [[v for k, four in enumerate(fours) for v in (four[:2] if i >> k & 1 else four[2:])] for i in range(n)]
    return CORE + clauses, ["d " + " ".join(map(str, c)) for c in clauses] + ["1"]


KINDS = [units, reasons, copies, shared, shared_newest, long, chained, groups, moved, one_bucket, one_sum]

if __name__ == "__main__":
    if len(sys.argv) != 5 or sys.argv[1] not in [k.__name__ for k in KINDS]:
        sys.exit(__doc__ + "\nKinds: " + ", ".join(k.__name__ for k in KINDS))
    kind = {k.__name__: k for k in KINDS}[sys.argv[1]]
    clauses, proof = kind(int(sys.argv[2]))
    write_formula(sys.argv[3], clauses)
    write(sys.argv[4], proof)
