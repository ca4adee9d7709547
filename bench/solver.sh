#!/bin/sh
# usage: bench/solver.sh FORMULA [FOLDER]
# Solves a formula with CaDiCaL, whose proof goes through a pipe to `sr trim`, and checks what was written, strictly.
# With FOLDER the trimmed proof and the core stay there.
set -eu
[ $# -ge 1 ] || { sed -n '2,4s/^# //p' "$0" >&2; exit 2; }
here=$(cd "$(dirname "$0")/.." && pwd)
formula=$1
folder=${2:-$(mktemp -d)}
mkdir -p "$folder"
# CaDiCaL writes its proof (DRAT, binary) to the third descriptor, and its answer to standard output, which isn't wanted here.
cadical -q "$formula" /dev/fd/3 3>&1 >/dev/null |
    "$here/sr" trim "$formula" /dev/stdin --proof-form binary --lsr "$folder/trimmed.lsr" --core "$folder/core.cnf" --stats
"$here/sr" check "$formula" "$folder/trimmed.lsr" --strict
# The core alone is unsatisfiable too, for the solver as well.
cadical -q "$folder/core.cnf" | grep '^s '
[ $# -ge 2 ] || rm -r "$folder"
