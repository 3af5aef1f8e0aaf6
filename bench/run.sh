#!/usr/bin/env bash
# The benchmark. Prints its results as Markdown.
#
#   bench/run.sh            to standard output
#   bench/run.sh --update   into docs/BENCHMARKS.md, behind its line <!-- results -->
#
#   bench/run.sh --pairs [TEXT..]
#
# prints only the instructions of the rules that compare rows with rows: of all cases, or of those whose label has
# one of the texts.
#
#   bench/run.sh --fold
#
# prints only the figures of folding.
#
# The instructions of each case stay in build/bench/instructions.txt. A copy of it kept as bench/before.txt
# is shown beside those of later runs.
set -eu
cd "$(dirname "$0")/.."

if [ "${1:-}" = --update ]; then
    results=$(mktemp)
    trap 'rm -f "$results"' EXIT
    bench/run.sh > "$results"
    sed -i '/^<!-- results -->$/q' docs/BENCHMARKS.md
    { echo; cat "$results"; } >> docs/BENCHMARKS.md
    exit
fi

# The library, then a program that links it.
make --no-print-directory -s 1>&2
CARGO_TARGET_DIR=build/bench cargo build --offline --locked --release --manifest-path bench/Cargo.toml 1>&2
program=$PWD/build/bench/release/gabzeril-bench
counts=build/bench/instructions.txt
before=bench/before.txt

folder=$(mktemp -d)
trap 'rm -rf "$folder"' EXIT

# callgrind writes one dump for each call, numbered from 1 in the order of the cases.
# Prints a line for each case.
count_instructions() { # further arguments of the program
    valgrind --tool=callgrind --callgrind-out-file="$folder/dump" --toggle-collect=measured_call \
        --dump-after=measured_call "$program" instructions "$@" > "$folder/labels" 2> "$folder/log" ||
        { cat "$folder/log" >&2; exit 1; }
    number=0
    while IFS= read -r label; do
        number=$((number + 1))
        printf '%s\t%s\n' "$(sed -n 's/^totals: //p' "$folder/dump.$number")" "$label"
    done < "$folder/labels"
}

if [ "${1:-}" = --pairs ]; then
    shift
    count_instructions pairs "$@"
    exit
fi

if [ "${1:-}" = --fold ]; then
    count_instructions fold > "$folder/counts"
    "$program" fold "$folder/counts"
    exit
fi

rm -f "$counts"
if command -v valgrind > /dev/null; then
    count_instructions > "$counts"
fi

commit=$(git describe --always --dirty 2> /dev/null || echo unknown)
echo "Measured $(date -u +%Y-%m-%d), commit $commit, on $(sed -n 's/^model name[^:]*: //p' /proc/cpuinfo | head -n 1)," \
    "$(nproc) cores, load $(cut -d' ' -f1 /proc/loadavg);" \
    "$(rt version), $(rustc --version), $(valgrind --version 2> /dev/null || echo 'no valgrind: no instructions')."
for part in "asked $counts $before" "times $counts $before" sqlite stack sent archive; do
    echo
    # The words of a part are the program's arguments.
    # shellcheck disable=SC2086
    "$program" $part
done
