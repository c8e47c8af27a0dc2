#!/bin/sh
# Writes docs/FIGURES.md: sizes, the gate's time, run times, stack. No figure of that page is typed by hand.
#   docs/figures.sh              measures all of it: gate, compare, bench, stack (half an hour; nothing else should run meanwhile)
#   docs/figures.sh STEP ..      measures these steps anew; what the other steps printed last is used again
#   docs/figures.sh page         measures nothing
# What a step printed is kept in second/target/figures.
set -eu
cd "$(dirname "$0")/.."
logs=second/target/figures
mkdir -p "$logs"

measure() {
    case $1 in
    gate)
        begun=$(date +%s)
        make --no-print-directory test >"$logs/gate" 2>&1
        echo "seconds $(($(date +%s) - begun))" >>"$logs/gate"
        ;;
    compare) make --no-print-directory compare >"$logs/compare" 2>&1 ;;
    bench | stack)
        # What building prints is none of the page's.
        make --no-print-directory library >/dev/null 2>&1
        (cd second && cargo build --release --offline -p "$1") >/dev/null 2>&1
        second/target/release/"$1" >"$logs/$1"
        ;;
    page) ;;
    *)
        echo "the steps are gate, compare, bench, stack and page" >&2
        exit 2
        ;;
    esac
}

# lines FILE..: how many lines the files have; a folder without such files has none
lines() {
    cat "$@" 2>/dev/null | wc -l
}

sizes() {
    echo "| crate | code | definitions | proofs | must-fail edits |"
    echo "|---|---:|---:|---:|---:|"
    sed -n 's/^\([a-z_0-9]*\)\( [^:]*\)\{0,1\}:.*/\1/p' crates.txt | while read -r crate; do
        at=crates/$crate
        edits=$(find "$at" -name '*.edit' | wc -l)
        echo "$crate $(lines "$at"/src/*.rt) $(lines "$at"/specs/*.antt) $(find "$at/proofs" -name '*.antt' -exec cat {} + 2>/dev/null | wc -l) $edits"
    done | awk '{ code += $2; specs += $3; proofs += $4; edits += $5; printf "| `%s` | %d | %d | %d | %d |\n", $1, $2, $3, $4, $5 }
        END { printf "| all | %d | %d | %d | %d |\n", code, specs, proofs, edits }'
}

totals() {
    seconds=$(sed -n 's/^seconds //p' "$logs/gate")
    passed=$(sed -n 's/^\([0-9]* passed, 0 failed\)$/\1/p' "$logs/gate")
    compared=$(sed -n 's/^seeds .*: \([0-9]*\) calls compared$/\1/p' "$logs/compare")
    swept=$(sed -n 's/^\([0-9]*\) sweeps of free space.*/\1/p' "$logs/compare")
    echo "The whole gate (\`make test\`): $((seconds / 60)) minutes $((seconds % 60)) seconds, $passed. Machines differ; what each request of"
    echo "document 02 added, measured in a row on one machine, stands in [its note](notes/README.md). $(lines crates/vectors/stdout) stored cases"
    echo "run in the gate (crate \`vectors\`). \`make compare\`: $compared calls, every answer and every lent byte equal to the second program's;"
    echo "$swept of them are sweeps of free space, made by four programs."
}

page() {
    cat <<'TEXT'
# Figures

Written by `make figures` (docs/figures.sh); none is typed by hand.

## Sizes

Lines of code (`src`, contracts included), of definitions (`specs`) and of proofs, and must-fail edits.

TEXT
    sizes
    echo
    totals
    cat <<'TEXT'

## Times

`make bench`: the library ("product") against the second program ("reference"), and its sweep of free space against two programs that do
nothing else. The same maps and arguments, release builds, all answers compared before they are timed. The second program is plain Rust
that walks a map once and keeps lists; the library keeps nothing but the pieces of the zone that it edits.
TEXT
    echo "The library is compiled by \`rt lib\` of $(rt version), the others by the compiler named below."
    echo
    cat "$logs/bench"
    cat <<'TEXT'

## Stack

`make stack`, the most over maps with the most fragments to a zone and over 300 seeds of the generator. The aim is no call above 32 KiB.

TEXT
    cat "$logs/stack"
}

for step in ${*:-gate compare bench stack}; do
    measure "$step"
done
for step in gate compare bench stack; do
    [ -f "$logs/$step" ] || {
        echo "$step is not measured yet: docs/figures.sh $step" >&2
        exit 1
    }
done
page >"$logs/page"
mv "$logs/page" docs/FIGURES.md
