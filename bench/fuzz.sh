#!/bin/sh
# Fuzzes the built program with AFL++: `fuzz.sh [SECONDS]`, on each of four processors one of `check` and `trim` with a proof in
# text and in binary, for so many seconds (1200). Files of at most 10 KB; a run of more than a second counts as a hang.
# It needs AFL++ and the kit of Rattle. What it finds stays in bench/out, and it ends with the status 1 where that is a crash or
# a hang.
#
# The program is the proved one, compiled once more by a wrapper of the kit's clang that adds the counters of edges.
set -eu
seconds=${1:-1200}
here=$(cd "$(dirname "$0")/.." && pwd)
out="$here/bench/out"
kit=$(dirname "$(rt doc | head -n 1)")
runtime=$(ls /usr/lib/afl/afl-compiler-rt-64.o /usr/local/lib/afl/afl-compiler-rt-64.o 2>/dev/null | head -n 1)
[ -n "$runtime" ] || { echo "fuzz.sh: AFL++ isn't there" >&2; exit 2; }
rm -rf "$out"
mkdir -p "$out/tools/bin" "$out/seeds"

# A toolchain whose clang counts edges.
cp -r "$kit/toolchain/lib" "$out/tools/lib"
for tool in "$kit"/toolchain/bin/*; do ln -s "$tool" "$out/tools/bin/$(basename "$tool")"; done
rm "$out/tools/bin/clang"
printf '#!/bin/sh\nexec "%s" -fsanitize-coverage=trace-pc-guard "$@"\n' "$kit/toolchain/bin/clang" >"$out/tools/bin/clang"
chmod +x "$out/tools/bin/clang"

# The libraries as `./sr` left them.
"$here/sr" demo 2 >/dev/null
libraries=""
for name in sr_end $(cd "$here/crates" && ls); do
    rlib="$here/crates/$name/out/rlib"
    [ -d "$rlib/$name.rlib" ] && libraries="$libraries -L dependency=$rlib"
done
(cd "$here/crates/sr" && "$kit/bin/rattle" build --crate-name sr src/main.rt --extern "std=$kit/rlibs/std.rlib" \
    --extern "sr_end=$here/crates/sr_end/out/rlib/sr_end.rlib" -L "dependency=$kit/rlibs" $libraries \
    --antt-project "$kit/rattle/logic/antt-project.json" --logic-built "$kit/logic_built" --links sr= \
    --toolchain "$out/tools" -o "$out/sr.o" >"$out/build.log" 2>&1) || { tail "$out/build.log" >&2; exit 2; }
"$kit/bin/rattle-link" --target x86_64-unknown-linux-gnu --toolchain "$kit/toolchain" -o "$out/sr" "$out/sr.o" "$runtime" \
    "$kit/c/libos_c.a" "$kit/c/liblibc_c.a" >>"$out/build.log" 2>&1 || { tail "$out/build.log" >&2; exit 2; }

# Seeds: the proofs of examples/ in each form, over the formula that the fuzzed proofs are about.
formula="$here/examples/six.cnf"
for form in text binary; do
    mkdir -p "$out/seeds/check-$form" "$out/seeds/trim-$form"
    "$here/sr" trim "$formula" "$here/examples/six.dsr" --lsr "$out/seeds/check-$form/six" --lsr-form "$form" >/dev/null
done
cp "$here/examples/six.dsr" "$out/seeds/trim-text/six"
# The same lemmas and deletions in binary.
python3 - "$here/examples/six.dsr" "$out/seeds/trim-binary/six" <<'END'
import sys
out = bytearray()
for line in open(sys.argv[1]):
    words = line.split()
    out.append(ord("d" if words[0] == "d" else "a"))
    for word in words[words[0] == "d":]:
        n = 2 * abs(int(word)) + (int(word) < 0)
        while n > 127:
            out.append(n & 127 | 128)
            n >>= 7
        out.append(n)
open(sys.argv[2], "wb").write(out)
END

export AFL_SKIP_CPUFREQ=1 AFL_I_DONT_CARE_ABOUT_MISSING_CRASHES=1 AFL_NO_UI=1 AFL_NO_AFFINITY=1
for command in check trim; do
    for form in text binary; do
        afl-fuzz -i "$out/seeds/$command-$form" -o "$out/$command-$form" -V "$seconds" -t 1000 -G 10000 -m none -- \
            "$out/sr" "$command" "$formula" @@ --proof-form "$form" >"$out/$command-$form.log" 2>&1 &
    done
done
wait
status=0
for folder in "$out"/*-text "$out"/*-binary; do
    grep -E "^(execs_done|execs_per_sec|corpus_count|edges_found|saved_crashes|saved_hangs) " "$folder/default/fuzzer_stats" |
        sed "s#^#$(basename "$folder") #"
    [ -z "$(ls "$folder/default/crashes" "$folder/default/hangs" | grep id:)" ] || status=1
done
exit $status
