#!/usr/bin/env bash
# Three switches make their parts of rule B at three levels; the collector joins them and prints verdict and
# marked rows. What they print is compared with the file `expected`. Then every choice of levels must give
# the collector's answer on the whole tables.
#
# The same with a set, six rules of samples/: each switch makes one full part for all of them, and what is
# printed is compared with `expected-set`. Every choice of switches that send their whole tables instead must
# give the same verdicts, and mark no row that is not marked on the whole tables. Wrong arguments must leave
# every file as it was.
#
# Then plans on pool.txt: what is printed is compared with `expected-plan`, and with what docs/MANUAL.md shows. Each
# verdict that a plan foretells must be the collector's on the pool with the steps done by hand, on the whole tables
# and on the full parts made of them. One plan, plan-optics.txt on optics.txt, has values below zero.
#
# Then hidden values: what hide prints and writes is compared with `expected-hide`. For every rule of samples/ that is
# accepted, on three pools: the collector's verdict on what hide wrote is the one before, marked rows and all columns but
# the value are as they came, and hiding once more, with the same rows marked, gives the same file.
#
# Then templates: house-template.txt is filled for two sites, and what fill prints and writes is compared with
# `expected-fill`. Every rule of samples/ that is accepted comes back, byte for byte, when its constants are made blanks by
# hand and filled in again; so it does, without parameters, as it is.
#
# Then the archive: what archive prints and writes is compared with `expected-archive`, whose columns are worked out by
# hand. Every pool of examples/ and samples/ that is accepted is packed to the bytes that awk finds, and comes back byte for
# byte; every other is refused, and nothing is written.
#
# Last, folding: what fold prints and writes is compared with `expected-fold`, worked out by hand. Every device of those
# pools is folded as awk folds it, by paths; so it is with all its rows entered twice, block after block and row by row, and
# then comes back as it was. A pool of several devices is refused.
#
#   examples/run.sh [PROGRAMS]   the folder of the built programs; without it they are built with sanitizers
set -eu
here=$(cd "$(dirname "$0")" && pwd)
if [ $# -eq 0 ]; then
    make -C "$here/.." --no-print-directory -s sanitized-examples || {
        echo "examples: 0 passed, 1 failed"
        exit 1
    }
    set -- "$here/../build/sanitized"
fi
programs=$(cd "$1" && pwd)
folder=$(mktemp -d)
trap 'rm -rf "$folder"' EXIT
cp "$here"/*.txt "$folder"
cp -r "$here/../samples/rules" "$folder"
cd "$folder"

passed=0
failed=0

# Counts one comparison of a file with what is expected.
same() { # name expected found
    if diff -u "$2" "$3"; then
        passed=$((passed + 1))
    else
        failed=$((failed + 1))
        echo "differs: $1"
    fi
}

# Runs a command so that its failure becomes part of what it prints.
run() {
    "$@" 2>&1 || echo "exit status $?"
}

# The part of one switch, as the file part1.txt and so on.
send() { # device mode
    run "$programs/switch" rule.txt "d$1.txt" "$2" "part$1.txt"
}

collect() {
    run "$programs/collector" rule.txt "$@"
}

three_levels() {
    mode=0
    for device in 1 2 4; do
        mode=$((mode + 1))
        echo "switch $device, mode $mode"
        send "$device" "$mode"
        run cat "part$device.txt"
    done
    echo "collector"
    collect part1.txt part2.txt part4.txt
    echo "collector, the parts in another order"
    collect part2.txt part1.txt part4.txt
    echo "switch 1, mode 4"
    run "$programs/switch" rule.txt d1.txt 4
    echo "collector, no parts"
    collect
}

# Optical powers in dBm: switch 2 receives too little. All its rows are its file again, signs too.
below_zero() {
    awk 'NR == 1 || $1 == 2' optics.txt | sed 's/-24$/-27/' > weak.txt
    echo "values below zero: switch 2, modes 1 and 3"
    run "$programs/switch" rules/power-at-least-minus-24.txt weak.txt 1 weak-part.txt
    run cmp weak.txt weak-part.txt
    run "$programs/switch" rules/power-at-least-minus-24.txt weak.txt 3 weak-part.txt
    run cat weak-part.txt
    echo "collector"
    run "$programs/collector" rules/power-at-least-minus-24.txt weak-part.txt
    run "$programs/collector" rules/receive-below-transmit.txt optics.txt
    echo "a sign where none may stand, and a value without the sign that it needs"
    run "$programs/collector" rules/sign-of-variable.txt optics.txt
    sed '3s/ 3 / -3 /' optics.txt > wrong.txt
    run "$programs/collector" rules/some-device.txt wrong.txt
    sed 's/-24$/4294967272/' optics.txt > wrong.txt
    run "$programs/collector" rules/some-device.txt wrong.txt
}

{ three_levels; below_zero; } > found
same "three levels, values below zero" "$here/expected" found

# All but the number of rows, which depends on the levels.
answer() {
    collect "$@" | sed '/^rows /d'
}

answer d1.txt d2.txt d4.txt > whole
for first in 1 2 3; do
    for second in 1 2 3; do
        for third in 1 2 3; do
            { send 1 "$first"; send 2 "$second"; send 4 "$third"; } > found
            answer part1.txt part2.txt part4.txt >> found
            same "levels $first $second $third" whole found
        done
    done
done

# Sets.

rules=(rules/client-or-server.txt rules/at-most-one-server.txt rules/mtu-at-most-9000.txt
    rules/no-shared-router-id.txt rules/some-ntp-master.txt rules/no-shared-address.txt)

# The full part of one switch for all rules, as the file full1.txt and so on.
send_set() { # device rule...
    run "$programs/switch_set" "d$1.txt" "${@:2}" -- "full$1.txt"
}

# What both programs say of a set that is refused. No part is written.
refused_set() { # rule...
    rm -f full1.txt
    send_set 1 "$@"
    run "$programs/collector_set" "$@" -- d1.txt
    [ ! -e full1.txt ] || echo "a part was written"
}

sets() {
    for device in 1 2 4; do
        echo "switch $device"
        send_set "$device" "${rules[@]}"
        run cat "full$device.txt"
    done
    echo "collector"
    run "$programs/collector_set" "${rules[@]}" -- full1.txt full2.txt full4.txt
    echo "two rules whose own full parts are not enough together"
    send_set 1 rules/some-device-all-client.txt rules/some-device.txt
    run cat full1.txt
    run "$programs/collector_set" rules/some-device-all-client.txt rules/some-device.txt -- full1.txt
    echo "an unbound variable in the third rule"
    refused_set rules/client-or-server.txt rules/some-ntp-master.txt rules/unbound-variable.txt rules/some-device.txt
    echo "no entries in the second rule"
    head -n 1 rules/some-device.txt > rules/empty.txt
    refused_set rules/some-device.txt rules/empty.txt rules/unbound-variable.txt
    echo "seven levels in the last rule"
    refused_set rules/some-device.txt rules/six-levels.txt rules/seven-levels.txt
    echo "no rules"
    refused_set
    echo "33 rules"
    mapfile -t many < <(yes rules/some-device.txt | head -n 33)
    refused_set "${many[@]}"
    echo "32 rules"
    run "$programs/collector_set" "${many[@]:1}" -- d1.txt | sort | uniq -c
    echo "false rules, one with marked rows and one without; then no rows at all"
    sed '2s/1$/9/' rules/some-device.txt > rules/some-root-9.txt
    run "$programs/collector_set" rules/some-ntp-master.txt rules/some-root-9.txt rules/some-device.txt -- d1.txt
    run "$programs/collector_set" rules/some-ntp-master.txt rules/some-root-9.txt rules/some-device.txt --
}

# What a program says of wrong arguments, without the folder of the programs.
misused() { # program argument...
    said=$(run "$programs/$1" "${@:2}")
    echo "${said//"$programs/"/}"
}

misuses() {
    two=(rules/some-device.txt rules/some-ntp-master.txt)
    echo "switch, the part forgotten"
    misused switch_set d1.txt "${two[@]}"
    misused switch_set d1.txt "${two[@]}" --
    misused switch_set d1.txt
    misused switch_set
    echo "switch, the part not behind the rules"
    misused switch_set d1.txt full1.txt "${two[@]}"
    misused switch_set -- full1.txt d1.txt "${two[@]}"
    echo "switch, two parts"
    misused switch_set d1.txt "${two[@]}" -- full1.txt full2.txt
    echo "switch, more rules behind --"
    misused switch_set d1.txt rules/some-device.txt -- rules/some-ntp-master.txt -- full1.txt
    echo "switch, the table forgotten"
    misused switch_set "${two[@]}" -- full1.txt
    echo "collector, no --"
    misused collector_set "${two[@]}" full1.txt full2.txt
    misused collector_set "${two[@]}"
    misused collector_set
}

# The checksum of each file but what is found here.
checksums() {
    find . -type f ! -name 'found*' -exec cksum {} + | sort
}

sets > found
checksums > found-before
misuses >> found
checksums > found-after
same "sets" "$here/expected-set" found
same "files after wrong arguments" found-before found-after

# The verdicts, and the marked rows, each with its rule.
verdicts_of() { # file
    sed -e '/^rows /d' -e 's/, marked.*//' "$1"
}
marked_of() { # file
    sed -n 's/, marked//p' "$1" | awk '{ for (i = 3; i <= NF; i++) print $1, $i }' | sort
}

run "$programs/collector_set" "${rules[@]}" -- d1.txt d2.txt d4.txt > whole
verdicts_of whole > whole-verdicts
marked_of whole > whole-marked
for device in 1 2 4; do
    send_set "$device" "${rules[@]}"
done
for first in d1 full1; do
    for second in d2 full2; do
        for third in d4 full4; do
            run "$programs/collector_set" "${rules[@]}" -- "$first.txt" "$second.txt" "$third.txt" > found
            verdicts_of found > found-verdicts
            same "verdicts on $first $second $third" whole-verdicts found-verdicts
            marked_of found | comm -23 - whole-marked > marked-here-alone
            same "marks on $first $second $third" /dev/null marked-here-alone
        done
    done
done

# Plans.

book=(rules/client-or-server.txt rules/at-most-one-server.txt rules/mtu-at-most-9000.txt rules/some-ntp-master.txt)
optics=(rules/power-at-least-minus-24.txt rules/power-at-most-minus-3.txt rules/receive-below-transmit.txt)

# A plan on pool.txt, or on another pool, with the rules of the book.
try() { # plan [pool]
    run "$programs/plan" "${book[@]}" -- "${2-pool.txt}" -- "$1"
}

# The same for a plan of these lines; only what is printed below the table.
try_lines() { # line...
    printf '%s\n' "$@" > plan.txt
    try plan.txt | sed '1,/^$/d' | sed '1,/^$/d'
}

# A pool of as many rows as a table may have.
full_pool() {
    awk 'BEGIN { print "device at up deep name value"; for (i = 1; i <= 1024; i++) print 1, i, 0, 0, 1, i }'
}

refused_steps() {
    echo "a row to set or remove that is not there"
    try_lines 'set 4 2 1' 'set 4 9 1'
    try_lines 'remove 5 1'
    try_lines 'remove 3 2' 'set 3 2 1'
    try_lines 'set 0 0 0'
    try_lines 'remove 4294967295 4294967295'
    echo "a row to add that is there already, the second time also with other words"
    try_lines '' 'add 3 2 1 1 2 1'
    try_lines '' 'add 3 2 9 9 3 9'
    echo "numbers out of range"
    try_lines 'set 1 4 2147483647' 'set 1 4 -2147483648' 'add 3 4 1 1 65536 -1'
    try_lines 'add 3 0 1 1 3 101'
    echo "no parent; a later row is none"
    try_lines 'add 2 4 9 1 3 101'
    try_lines 'add 4 5 1 1 3 102' 'add 4 4 5 2 5 1500'
    echo "wrong depth"
    try_lines 'add 2 4 1 2 3 101'
    echo "two roots with one value"
    try_lines 'set 2 1 11'
    try_lines 'set 2 1 -11' 'set 1 1 -11'
    echo "a rule turned false, then a refused step"
    try_lines 'set 3 2 3' 'remove 3 1'
    echo "more rows than a table may have"
    full_pool > full.txt
    printf 'set 1 1024 0\nremove 1 1\nadd 2 1 0 0 1 1\nadd 2 2 1 1 2 1\n' > plan.txt
    run "$programs/plan" rules/some-device.txt -- full.txt -- plan.txt
}

accepted_plans() {
    echo "no steps"
    printf '# Nothing is to be done.\n\n' > plan.txt
    try plan.txt
    echo "one rule, the pool in several files"
    printf 'set 4 2 1\nset 2 2 2\n' > plan.txt
    run "$programs/plan" rules/at-most-one-server.txt -- d1.txt d2.txt d4.txt -- plan.txt
    echo "a pool from nothing and back"
    printf '%s\n' 'add 7 1 0 0 1 17' 'add 3 1 0 0 1 13' 'remove 7 1' 'remove 3 1' > plan.txt
    run "$programs/plan" rules/some-device.txt rules/at-most-one-server.txt -- -- plan.txt
    echo "tabs, carriage returns, a comment right behind a number, a long one, no end of the last line"
    printf '\tset  1\t2 1 \r\n\r\n   # set\nset 4 2 2# server\n#%0100000d\nset 4 3 1' 0 > plan.txt
    try plan.txt
    echo "values below zero"
    run "$programs/plan" "${optics[@]}" -- optics.txt -- plan-optics.txt
    echo "the least value and the largest"
    printf '%s\n' 'add 1 1 0 0 1 -2147483648' 'add 1 2 1 1 3 1' 'add 1 3 2 2 8 2147483647' 'set 1 3 -2147483648' > plan.txt
    run "$programs/plan" rules/some-least-value.txt "${optics[@]}" -- -- plan.txt
    echo "12,000 steps, and 32 rules"
    awk 'BEGIN { for (i = 0; i < 12000; i++) print "set 3 2", 1 + i % 2 }' > plan.txt
    run "$programs/plan" rules/some-device.txt -- pool.txt -- plan.txt | sed '6,12003d'
    run "$programs/plan" "${many[@]:1}" -- pool.txt -- plan-move.txt | sed '2,31d' | cut -c 1-100 | sed 's, *$,,'
}

wrong_lines() {
    for line in 'move 1 2 3' 'SET 1 2 3' 'sets 1 2 3' '1 1 2 3' 'set1 2 3' 'set' 'set 1 2' 'set 1 2 # 3' 'set 1 2 3 4' \
        'remove 1' 'remove 1 2 3' 'add 4 4 1 1 3' 'add 4 4 1 1 3 101 0' 'add 4 4 1 1 3 101 set 1 2 3' 'set -1 2 1' \
        'remove 1 -2' 'add 4 4 -1 1 3 101' 'add 4 4 1 -1 3 101' 'add 4 4 1 1 -3 101' 'add 4 4 -0 1 3 101' 'set 1 2 -' \
        'set 1 2 - 1' 'set 1 2 -0' 'set 1 2 -00' 'set 1 2 -01' 'set 1 2 --1' 'set 1 2 -+1' 'set 1 2 +1' 'set 1 2 1-' \
        'set 1 2 2147483648' 'set 1 2 4294967295' 'set 1 2 -2147483649' 'set 1 2 -21474836480' 'add 4 4 1 1 3 -4294967295' \
        'set +1 2 1' 'set 1 02 1' 'set 1 2 4294967296' 'set 1 2 18446744073709551617' 'add 4 4 1 x 3 101' 'set 1 2 0x1' \
        'set 1,2,3' 'set 1 2 3;' 'add 4 4 1 1 3.0 101' 'add 4 4 y 1 3 101' '"set" 1 2 3'; do
        echo "$line"
        printf 'set 4 2 2\n%s\nset 1 2\n' "$line" > plan.txt
        try plan.txt
    done
    echo "a byte 0"
    printf 'set\0 4 2 2\n' > plan.txt
    try plan.txt
    printf 'set 4 2 2\0\n' > plan.txt
    try plan.txt
    echo "a long word"
    printf 'set 4 2 1%0100000d\n' 0 > plan.txt
    try plan.txt
}

misused_plan() {
    echo "plan, wrong arguments"
    misused plan
    misused plan "${book[@]}"
    misused plan "${book[@]}" -- pool.txt
    misused plan "${book[@]}" -- pool.txt plan-move.txt
    misused plan "${book[@]}" -- pool.txt --
    misused plan "${book[@]}" -- pool.txt -- plan-move.txt plan-remove.txt
    misused plan "${book[@]}" -- pool.txt -- plan-move.txt --
    echo "plan, other files"
    misused plan "${book[@]}" -- pool.txt -- no-such-file.txt
    misused plan "${book[@]}" -- no-such-file.txt -- plan-move.txt
    misused plan "${book[@]}" -- pool.txt -- rules
    misused plan "${book[@]}" -- plan-move.txt -- pool.txt
    misused plan "${book[@]}" -- pool.txt -- pool.txt
    misused plan -- pool.txt -- plan-move.txt
    misused plan rules/some-device.txt rules/unbound-variable.txt -- pool.txt -- plan-move.txt
    misused plan "${book[@]}" -- d2.txt d1.txt -- plan-move.txt
    misused plan "${many[@]}" -- pool.txt -- plan-move.txt
}

plans() {
    for plan in plan-move plan-move-in-order plan-remove plan-new-switch; do
        echo "$plan"
        try "$plan.txt"
    done
    refused_steps
    accepted_plans
    wrong_lines
}

plans > found
checksums > found-before
misused_plan >> found
checksums > found-after
same "plans" "$here/expected-plan" found
same "files after wrong arguments of plan" found-before found-after

# The lines of `found` must stand in the manual, indented.
in_manual() { # what they are
    sed -i 's/./    &/' found
    if [[ $(< "$here/../docs/MANUAL.md") == *"$(< found)"* ]]; then
        passed=$((passed + 1))
    else
        failed=$((failed + 1))
        echo "not in the manual: $1"
    fi
}

# So must what a program prints in the folder above this one.
shown_in_manual() { # name program argument...
    (cd "$here/.." && run "$programs/$2" "${@:3}") | sed '/^exit status/d' > found
    in_manual "what $2 prints for $1"
}

for plan in plan-move plan-remove; do
    shown_in_manual "$plan" plan "${book[@]/#/samples/}" -- examples/pool.txt -- "examples/$plan.txt"
done

# The verdicts in the line of a step.
foretold() { # step
    awk -v step="$1" -v rules="${#book[@]}" '$1 == step { for (i = NF - rules + 1; i <= NF; i++) print tolower($i) }' foretold |
        tr -d '*'
}

# The verdicts of the collector.
collected() { # part...
    run "$programs/collector_set" "${book[@]}" -- "$@" | sed -e '/^rows /d' -e 's/, marked.*//' -e 's/.*: //'
}

# state.txt with a step done by hand.
by_hand() { # set device at value, and so on
    case $1 in
    set) awk -v d="$2" -v a="$3" -v v="$4" '$1 == d && $2 == a { $6 = v } { print }' state.txt ;;
    add) sed '1!d' state.txt && { sed 1d state.txt && echo "${*:2}"; } | sort -n -k 1,1 -k 2,2 ;;
    remove) awk -v d="$2" -v a="$3" '$1 != d || $2 != a' state.txt ;;
    esac
}

# The foretold verdicts of a step against those on state.txt, and on the full parts of its devices.
check_state() { # plan step
    local device parts=()
    foretold "$2" > found
    collected state.txt > found-verdicts
    same "$1 after step $2, whole" found found-verdicts
    for device in $(sed 1d state.txt | cut -d ' ' -f 1 | sort -nu); do
        awk -v d="$device" 'NR == 1 || $1 == d' state.txt > "d$device.txt"
        send_set "$device" "${book[@]}"
        parts+=("full$device.txt")
    done
    collected "${parts[@]}" > found-verdicts
    same "$1 after step $2, parts" found found-verdicts
}

# The verdicts before the first step and after each step done.
check_plan() { # plan pool
    local line lines words step=0 steps
    try "$1.txt" "$2" > foretold
    steps=$(sed -n 's/^steps done \([0-9]*\) of.*/\1/p' foretold)
    cp "$2" state.txt
    check_state "$1" now
    mapfile -t lines < <(sed -e 's/#.*//' -e '/^ *$/d' "$1.txt" | head -n "${steps:-0}")
    for line in "${lines[@]}"; do
        read -r -a words <<< "$line"
        by_hand "${words[@]}" > state-after.txt
        mv state-after.txt state.txt
        step=$((step + 1))
        check_state "$1" "$step"
    done
}

for plan in plan-move plan-move-in-order plan-remove plan-new-switch; do
    check_plan "$plan" pool.txt
done
book=("${optics[@]}")
check_plan plan-optics optics.txt

# Hidden values. wrong.txt, full.txt, rules/empty.txt and rules/some-root-9.txt are made above.

# What is printed, and the pool that is written.
hide() { # rule pool
    rm -f hidden.txt
    run "$programs/hide" "$1" "$2" hidden.txt
    [ ! -e hidden.txt ] || cat hidden.txt
}

# A pool of these rows.
pool_of() { # row...
    echo "device at up deep name value"
    [ $# -eq 0 ] || printf '%s\n' "$@"
}

accepted_hidings() {
    echo "a true rule"
    hide rules/at-most-one-server.txt pool.txt
    echo "a false rule"
    hide rules/some-ntp-master.txt pool.txt
    echo "values below zero: a true rule that marks all rows but two, and a false one"
    hide rules/power-at-least-minus-24.txt optics.txt
    hide rules/power-at-most-minus-3.txt strong.txt
    echo "no row is marked"
    hide rules/some-root-9.txt pool.txt
    echo "every row is marked"
    hide rules/receive-below-transmit.txt optics.txt
    echo "no rows"
    hide rules/at-most-one-server.txt none.txt
    hide rules/some-device.txt none.txt
    echo "marked values that are 0, 1, 3, 4 and -1"
    hide rules/every-device.txt taken.txt
    echo "1,024 rows, one of them marked"
    hide rules/some-device.txt full.txt | sed '8,1024d'
}

refused_hidings() {
    echo "a refused rule"
    hide rules/unbound-variable.txt pool.txt
    hide rules/sign-of-variable.txt pool.txt
    hide rules/empty.txt pool.txt
    echo "a refused pool"
    hide rules/some-device.txt equal-roots.txt
    hide rules/some-device.txt wrong.txt
    hide pool.txt rules/some-device.txt
}

misused_hide() {
    echo "hide, wrong arguments"
    misused hide
    misused hide rules/some-device.txt
    misused hide rules/some-device.txt pool.txt
    misused hide rules/some-device.txt pool.txt hidden.txt optics.txt
    echo "hide, other files"
    misused hide no-such-file.txt pool.txt hidden.txt
    misused hide rules/some-device.txt no-such-file.txt hidden.txt
    misused hide rules/some-device.txt pool.txt no-such-folder/hidden.txt
    echo "hide, refused where there is a file already"
    misused hide rules/unbound-variable.txt pool.txt hidden.txt
    misused hide rules/some-device.txt equal-roots.txt hidden.txt
}

printf 'kind a b c\n5 1 0 1\n7 0 0 0\n' > rules/every-device.txt
sed 's/-24$/-1/' optics.txt > strong.txt
pool_of > none.txt
pool_of '1 1 0 0 1 3' '1 2 1 1 2 0' '1 3 0 0 2 3' '2 1 0 0 1 0' '2 2 1 1 2 4' '2 3 1 1 2 9' '3 1 0 0 1 1' '3 2 1 1 2 1' \
    '4 1 0 0 1 -1' '4 2 1 1 2 -1' '5 1 0 0 1 4' > taken.txt
pool_of '1 1 0 0 1 11' '2 1 0 0 1 11' > equal-roots.txt
{ accepted_hidings; refused_hidings; } > found
cp pool.txt hidden.txt
checksums > found-before
misused_hide >> found
checksums > found-after
same "hidden values" "$here/expected-hide" found
same "files after wrong arguments of hide" found-before found-after
shown_in_manual some-ntp-master hide samples/rules/some-ntp-master.txt examples/pool.txt "$folder/hidden.txt"

# All columns but the value.
kept_columns() { # pool
    run awk '{ print $1, $2, $3, $4, $5 }' "$1"
}

# The verdict of the collector, and the marked rows.
verdict_and_marked() { # rule pool
    run "$programs/collector" "$1" "$2" | sed -e '/^rows /d' -e 's/^ *//'
}

# The rows that the collector marked, without their names and values.
marked_rows() { # file
    sed -n '3,$p' "$1" | cut -d ' ' -f 1
}

# Those of these rows that the pool has not, with name and value.
not_in() { # file pool
    sed -n '3,$p' "$1" | sort > found-marked
    awk 'NR > 1 { print $1 "/" $2, "name", $5, "value", $6 }' "$2" | sort | comm -23 found-marked -
}

twice=0
check_hiding() { # rule pool
    verdict_and_marked "$1" "$2" > whole
    rm -f hidden.txt hidden-twice.txt
    run "$programs/hide" "$1" "$2" hidden.txt > found
    verdict_and_marked "$1" hidden.txt > found-marked-after
    head -n 1 whole > whole-verdict
    head -n 1 found-marked-after > found-verdict
    same "verdict of $1 on $2 with hidden values" whole-verdict found-verdict
    kept_columns "$2" > whole-columns
    kept_columns hidden.txt > found-columns
    same "columns of $2 with values hidden for $1" whole-columns found-columns
    not_in whole hidden.txt > found-changed
    same "marked rows of $2 with values hidden for $1" /dev/null found-changed
    if [ "$(marked_rows whole)" = "$(marked_rows found-marked-after)" ]; then
        run "$programs/hide" "$1" hidden.txt hidden-twice.txt > found
        same "values of $2 hidden twice for $1" hidden.txt hidden-twice.txt
        twice=$((twice + 1))
    fi
}

for rule in rules/*.txt; do
    if "$programs/collector" "$rule" > found 2>&1; then
        for pool in pool.txt optics.txt taken.txt; do
            check_hiding "$rule" "$pool"
        done
    fi
done
if [ "$twice" -ge 30 ]; then
    passed=$((passed + 1))
else
    failed=$((failed + 1))
    echo "values were hidden twice only $twice times"
fi

# Templates. equal-roots.txt and none.txt are made above.

# What is printed, and the rule that is written.
fill_in() { # template pool parameter...
    rm -f filled.txt
    run "$programs/fill" "$1" "$2" filled.txt "${@:3}"
    [ ! -e filled.txt ] || cat filled.txt
}

# The house template for a site.
fill() { # pool parameter...
    fill_in house-template.txt "$@"
}

accepted_fillings() {
    echo "one template, two sites"
    fill site-harbour.txt 120 -24
    fill site-hill.txt 130 -18
    echo "the collector with the rule of the hill"
    run "$programs/collector" filled.txt site-hill.txt | head -n 2
    echo "each site with the other's parameters, and the harbour with a higher threshold"
    fill site-harbour.txt 130 -18
    fill site-hill.txt 120 -24
    fill site-harbour.txt 120 -23 | head -n 2
    echo "the parameters exchanged"
    fill site-harbour.txt -24 120
    echo "the least value and the largest; no rows"
    fill none.txt 2147483647 -2147483648
    echo "a false rule without marked rows"
    fill_in some-device-template.txt none.txt 11
    echo "one number three times, and 16 parameters"
    sed 's/2 1$/2 0/' house-template.txt > once.txt
    fill_in once.txt none.txt -1
    template_of 16 > sixteen.txt
    fill_in sixteen.txt none.txt {-8..7} | tail -n 3
    echo "no blanks and no parameters"
    fill_in rules/some-device.txt site-hill.txt
}

# Every device is one of so many parameters.
template_of() { # parameters
    awk -v n="$1" 'BEGIN {
        print "kind a b c"
        print "5 1 0 1"
        for (i = 0; i < n - 1; i++) { print 3, 2 * i + 2, 2 * i + 3, 0; print 7, 0, 2, i }
        print 7, 0, 2, n - 1
    }'
}

refused_fillings() {
    echo "a parameter too few, and none"
    fill site-harbour.txt 120
    fill site-harbour.txt
    echo "a parameter too many"
    fill site-harbour.txt 120 -24 9000
    fill_in rules/some-device.txt site-harbour.txt 120
    echo "17 parameters, all of them used; then one of them missing"
    template_of 17 > seventeen.txt
    fill_in seventeen.txt none.txt {1..17}
    fill_in seventeen.txt none.txt {1..16}
    echo "a number left out"
    sed 's/2 1$/2 2/' house-template.txt > gap.txt
    fill_in gap.txt site-harbour.txt 120 -24 -24
    fill_in gap.txt site-harbour.txt 120 -24
    echo "a refused template: its first line, a sign in a number, b = 3, an unbound variable, no entries"
    fill_in site-harbour.txt site-harbour.txt 120 -24
    sed 's/2 1$/2 -1/' house-template.txt > wrong-template.txt
    fill_in wrong-template.txt site-harbour.txt 120 -24
    sed 's/^8 2 2 /8 2 3 /' house-template.txt > wrong-template.txt
    fill_in wrong-template.txt site-harbour.txt 120 -24
    sed 's/^8 2 2 /8 3 2 /' house-template.txt > wrong-template.txt
    fill_in wrong-template.txt site-harbour.txt 120 -24
    fill_in rules/empty.txt site-harbour.txt
    echo "a refused pool"
    fill equal-roots.txt 120 -24
    echo "a template is no rule"
    run "$programs/collector" house-template.txt site-harbour.txt
    run "$programs/switch" house-template.txt site-harbour.txt 1
    run "$programs/collector_set" rules/some-device.txt house-template.txt -- site-harbour.txt
}

misused_fill() {
    echo "fill, wrong arguments"
    misused fill
    misused fill house-template.txt
    misused fill house-template.txt site-harbour.txt
    echo "fill, parameters that are no numbers"
    for text in x '' - -0 +1 007 1.5 0x10 2147483648 -2147483649 4294967272 '1 2' 1- 18446744073709551617; do
        misused fill house-template.txt site-harbour.txt filled.txt 120 "$text"
    done
    echo "fill, other files"
    misused fill no-such-file.txt site-harbour.txt filled.txt 120 -24
    misused fill house-template.txt no-such-file.txt filled.txt 120 -24
    misused fill house-template.txt site-harbour.txt no-such-folder/filled.txt 120 -24
    echo "fill, refused where there is a file already"
    misused fill house-template.txt site-harbour.txt filled.txt 120
    misused fill house-template.txt equal-roots.txt filled.txt 120 -24
}

sed 's/ 0 0$/ 2 0/' rules/some-device.txt > some-device-template.txt
{ accepted_fillings; refused_fillings; } > found
cp rules/some-device.txt filled.txt
checksums > found-before
misused_fill >> found
checksums > found-after
same "templates" "$here/expected-fill" found
same "files after wrong arguments of fill" found-before found-after
filling_in_manual() { # site parameter...
    shown_in_manual "$1" fill examples/house-template.txt "examples/$1.txt" "$folder/filled.txt" "${@:2}"
}
filling_in_manual site-harbour 120 -24
filling_in_manual site-hill 130 -18
filling_in_manual site-harbour 130 -18

# A rule with its constants as blanks, those with one value with one number; the values go to constants.txt.
blanked() { # rule
    : > constants.txt
    awk '$1 >= 7 && $3 == 1 && NR > 1 {
        if (!($4 in number)) { number[$4] = count++; print $4 > "constants.txt" }
        $3 = 2; $4 = number[$4]
    } { print }' "$1"
}

comes_back=0
check_filling() { # rule pool
    local constants
    blanked "$1" > blanked.txt
    mapfile -t constants < constants.txt
    { run "$programs/collector" "$1" "$2" | grep '^verdict'; cat "$1"; } > whole
    { fill_in blanked.txt "$2" "${constants[@]}" | sed -e '/^parameters/d' -e 's/^\(verdict [a-z]*\).*/\1/'; } > found
    same "$1 with its constants filled in, on $2" whole found
    { fill_in "$1" "$2" | sed -e '/^parameters/d' -e 's/^\(verdict [a-z]*\).*/\1/'; } > found
    same "$1 filled as it is, on $2" whole found
    comes_back=$((comes_back + (${#constants[@]} > 0)))
}

for rule in rules/*.txt; do
    if "$programs/collector" "$rule" > found 2>&1; then
        for pool in pool.txt site-harbour.txt; do
            check_filling "$rule" "$pool"
        done
    fi
done
if [ "$comes_back" -ge 20 ]; then
    passed=$((passed + 1))
else
    failed=$((failed + 1))
    echo "constants were filled in only $comes_back times"
fi

# The archive. wrong.txt, full.txt, none.txt, taken.txt and equal-roots.txt are made above.

# The bytes of a file of columns: a column a line, a word as its four bytes.
columns_in() { # file
    local size
    size=$(wc -c < "$1")
    echo "bytes $size"
    [ "$size" -eq 0 ] || od -An -v -tx1 -w$((size / 6)) "$1" | sed -e 's/ \(..\) \(..\) \(..\) \(..\)/ \1\2\3\4/g' -e 's/^ //'
}

# What is printed, and the columns that are written.
pack() { # pool
    rm -f columns.bin
    run "$programs/archive" pack "$1" columns.bin
    [ ! -e columns.bin ] || columns_in columns.bin
}

# What is printed, and the pool that is written.
unpack() { # columns
    rm -f unpacked.txt
    run "$programs/archive" unpack "$1" unpacked.txt
    [ ! -e unpacked.txt ] || cat unpacked.txt
}

# So many bytes 0.
zeros() { # bytes
    head -c "$1" /dev/zero
}

# Words below 256 as bytes.
words() { # word...
    printf '%b' "$(printf '\\x%x\\0\\0\\0' "$@")"
}

unpack_words() { # word...
    words "$@" > wrong.bin
    unpack wrong.bin
}

# The columns of so many roots, whose numbers and values are 1, 2, 3 and so on.
roots_in_columns() { # rows
    local once every none
    mapfile -t once < <(echo 1 && yes 0 | head -n $(($1 - 1)))
    mapfile -t every < <(yes 1 | head -n "$1")
    mapfile -t none < <(yes 0 | head -n "$1")
    words "${once[@]}" "${every[@]}" "${none[@]}" "${none[@]}" "${once[@]}" "${every[@]}"
}

accepted_archives() {
    echo "two switches, values below zero"
    pack optics.txt
    echo "words that take all four bytes, and differences that wrap"
    pack wide.txt
    echo "one row, and no rows"
    pack one-row.txt
    pack none.txt
    echo "columns made by hand: two rows, and none"
    { words 3 0 7 2 0 7 0 1 1 && printf '\1\1\0\0\350\377\377\377\30\0\0\200'; } > by-hand.bin
    unpack by-hand.bin
    : > by-hand.bin
    unpack by-hand.bin
    echo "as many rows as a table may have"
    roots_in_columns 1024 > by-hand.bin
    unpack by-hand.bin | sed '4,1024d'
}

refused_archives() {
    echo "a refused pool"
    pack equal-roots.txt
    pack wrong.txt
    pack rules/some-device.txt
    pack deep.txt
    pack over.txt
    echo "columns that are not whole words"
    for size in 1 2 3 23 25 313 42013; do
        zeros "$size" > wrong.bin
        unpack wrong.bin
    done
    echo "columns that are not whole rows"
    for size in 4 20 28 24572 42012; do
        zeros "$size" > wrong.bin
        unpack wrong.bin
    done
    echo "whole rows that are no table: no device, a row twice, no parent, a wrong depth, equal siblings"
    unpack_words 0 0 0 0 0 0
    unpack_words 1 0 1 0 0 0 0 0 1 0 1 1
    unpack_words 1 0 1 1 0 7 0 1 1 0 1 0
    unpack_words 1 0 1 1 0 1 0 0 1 0 1 0
    unpack_words 1 0 1 1 0 0 0 0 1 0 1 0
    echo "a row more than a table may have"
    roots_in_columns 1025 > wrong.bin
    unpack wrong.bin
    echo "a pool file in the place of columns: 194 bytes, and 120, whole rows by chance"
    unpack pool.txt
    unpack wide.txt
}

misused_archive() {
    echo "archive, wrong arguments"
    misused archive
    misused archive pack
    misused archive pack pool.txt
    misused archive pack pool.txt columns.bin unpacked.txt
    misused archive unpack columns.bin
    misused archive pool.txt columns.bin
    misused archive PACK pool.txt columns.bin
    misused archive '' pool.txt columns.bin
    misused archive packed pool.txt columns.bin
    echo "archive, other files"
    misused archive pack no-such-file.txt columns.bin
    misused archive unpack no-such-file.bin unpacked.txt
    misused archive pack pool.txt no-such-folder/columns.bin
    misused archive unpack columns.bin no-such-folder/unpacked.txt
    misused archive pack pool.txt rules
    misused archive unpack rules unpacked.txt
    misused archive unpack long.bin unpacked.txt
    echo "archive, refused where there is a file already"
    misused archive pack equal-roots.txt columns.bin
    misused archive unpack odd.bin unpacked.txt
    misused archive unpack wrong.bin unpacked.txt
    echo "archive, the files exchanged"
    misused archive pack columns.bin pool.txt
    misused archive unpack pool.txt columns.bin
}

pool_of '1 1 0 0 1 16909060' '1 2 1 1 258 2147483647' '1 3 1 1 258 -2147483648' '65535 65535 0 0 65535 -1' > wide.txt
pool_of '7 3 0 0 2 -24' > one-row.txt
pool_of '1 1 0 0 1 11' '1 2 1 2 2 1' > deep.txt
{ cat full.txt; echo '1 1025 0 0 1 1025'; } > over.txt
{ accepted_archives; refused_archives; } > found
"$programs/archive" pack optics.txt columns.bin > found-rows
cp pool.txt unpacked.txt
zeros 42014 > long.bin
zeros 25 > odd.bin
checksums > found-before
misused_archive >> found
checksums > found-after
same "archive" "$here/expected-archive" found
same "files after wrong arguments of archive" found-before found-after
od -An -v -td4 -w32 columns.bin > found
in_manual "the columns of optics.txt"

# The columns of a pool, shown as columns_in shows them.
columns_by_awk() { # pool
    awk 'NR > 1 { for (c = 1; c <= 6; c++) value[c, NR - 1] = $c }
        END {
            print "bytes", 24 * (NR - 1)
            for (c = 1; c <= 6 && NR > 1; c++)
                for (row = 1; row < NR; row++) {
                    word = row == 1 ? value[c, 1] : value[c, row] - value[c, row - 1]
                    if (word < 0) word += 4294967296
                    for (i = 0; i < 4; i++) { printf "%02x", word % 256; word = int(word / 256) }
                    printf "%s", row + 1 < NR ? " " : "\n"
                }
        }' "$1"
}

archived=0
check_archive() { # pool
    local rows
    rm -f columns.bin unpacked.txt
    if "$programs/collector" rules/some-device.txt "$1" > found 2>&1; then
        rows=$(sed 1d "$1" | wc -l)
        { echo "rows $rows" && columns_by_awk "$1" && echo "rows $rows"; } > whole
        { pack "$1" && run "$programs/archive" unpack columns.bin unpacked.txt; } > found
        same "columns of $1" whole found
        same "$1 packed and unpacked" "$1" unpacked.txt
        archived=$((archived + 1))
    else
        { pack "$1" | sed -n '/: refused, number/!p'; } > found
        same "$1, which is refused" <(echo "exit status 1") found
    fi
}

# A case of samples/ for each of its pools.
sample_pools() {
    awk '{ sub(/#.*/, "") } NF && $3 != "-" && !seen[$3]++ { print $1 }' "$here/../samples/cases.txt"
}

for pool in "$here"/*.txt "$here"/../samples/pools/*.txt full.txt over.txt none.txt taken.txt wide.txt one-row.txt; do
    check_archive "$pool"
done
for name in $(sample_pools); do
    "$here/../samples/run.sh" --lay-out "$name" "samples/$name"
    check_archive "samples/$name/pool.txt"
done
if [ "$archived" -ge 30 ]; then
    passed=$((passed + 1))
else
    failed=$((failed + 1))
    echo "only $archived pools were packed and unpacked"
fi

# Folding. wrong.txt, full.txt, none.txt, equal-roots.txt, one-row.txt, deep.txt and over.txt are made above.

# What is printed, and the table that is written.
fold() { # table
    rm -f folded.txt
    run "$programs/fold" "$1" folded.txt
    [ ! -e folded.txt ] || cat folded.txt
}

# The same for these rows.
fold_rows() { # row...
    pool_of "$@" > rows.txt
    fold rows.txt
}

# The report alone, where the table must come back byte for byte.
fold_to_itself() { # table
    rm -f folded.txt
    run "$programs/fold" "$1" folded.txt
    run cmp "$1" folded.txt
}

accepted_foldings() {
    echo "interfaces in two blocks"
    fold blocks.txt
    echo "the same to standard output, and folded once more"
    "$programs/fold" blocks.txt 2> found-report > found-folded || echo "exit status $?"
    run cmp folded.txt found-folded
    tail -n 1 found-report
    run cp folded.txt once.txt
    fold_to_itself once.txt
    echo "blocks within blocks, and folded once more"
    fold nested-blocks.txt
    run cp folded.txt once-nested.txt
    fold_to_itself once-nested.txt
    echo "nothing to fold: a switch, one row, no rows, 1,024 roots"
    fold_to_itself "$here/d1.txt"
    fold_to_itself one-row.txt
    fold_to_itself none.txt
    fold_to_itself full.txt
    echo "the same name and value on one path and under different parents"
    pool_of '1 1 0 0 3 5' '1 2 1 1 3 5' '1 3 2 2 3 5' '1 4 1 1 3 -5' '1 5 4 2 3 5' '1 6 1 1 5 3' '1 7 0 0 5 3' > alike.txt
    fold_to_itself alike.txt
    echo "three of a kind, the ends of the values, numbers with gaps"
    fold_rows '65535 7 0 0 65535 -2147483648' '65535 9 7 1 1 2147483647' '65535 100 0 0 65535 2147483647' \
        '65535 101 0 0 65535 -2147483648' '65535 300 101 1 1 -2147483648' '65535 65533 0 0 65535 -2147483648' \
        '65535 65534 65533 1 1 2147483647' '65535 65535 65533 1 1 -1'
    echo "1,024 rows: equal roots; two equal chains; rows under a root, 511 of them twice, or the last alone"
    same_rows 1024 '0, 0, 1, 11' > many.txt
    fold many.txt | sed '4,1022d'
    same_rows 1024 '(i % 512 == 1 ? 0 : i - 1), (i - 1) % 512, 3, 101' > many.txt
    fold many.txt | sed -n -e 's/^ *//' -e 1p -e '512,515p' -e '1023,$p' -e '/moves/p'
    same_rows 1024 '(i == 1 ? 0 : 1), (i > 1), 3, (i - 1) % 512' > many.txt
    fold many.txt | sed -n -e '1,2p' -e '512,516p' -e '$p'
    same_rows 1024 '(i == 1 ? 0 : 1), (i > 1), 3, (i < 1024 ? i : 2)' > many.txt
    fold many.txt | sed -n -e '1,4p' -e '$p'
}

# So many rows of device 1, of which awk gives the words behind at by the row's number i.
same_rows() { # rows words
    awk -v n="$1" "BEGIN { print \"device at up deep name value\"; for (i = 1; i <= n; i++) print 1, i, $2 }"
}

# 12 before the folding, a verdict after it. Were the blocks of an interface two interfaces, the rule would be true: no
# block has both an address and an MTU above 9,000.
usable_after_folding() {
    echo "the collector and the switch before the folding"
    run "$programs/collector" rules/mtu-at-most-9000.txt blocks.txt
    run "$programs/switch" rules/mtu-at-most-9000.txt blocks.txt 3
    run "$programs/collector" rules/mtu-at-most-9000.txt once.txt nested-blocks.txt
    echo "after it"
    run "$programs/collector" rules/mtu-at-most-9000.txt once.txt once-nested.txt
    echo "the full part"
    run "$programs/switch" rules/mtu-at-most-9000.txt once.txt 3 full1.txt
    run cat full1.txt
    echo "equal roots of two devices are not folded"
    sed '2,$s/ 12$/ 11/' nested-blocks.txt > twin.txt
    run "$programs/fold" twin.txt twin-once.txt | tail -n 1
    run "$programs/collector" rules/mtu-at-most-9000.txt once.txt twin-once.txt
    echo "a step that adds an equal sibling"
    echo 'add 1 15 1 1 3 101' > plan.txt
    run "$programs/plan" rules/mtu-at-most-9000.txt -- once.txt -- plan.txt | sed -n '/stopped/p'
}

# Each table has equal siblings and a row of a second device, too.
refused_foldings() {
    echo "rows of two devices, also where their roots are equal"
    fold pool.txt
    fold equal-roots.txt
    fold_rows '1 1 0 0 1 11' '1 2 0 0 1 11' '2 1 0 0 1 11' '3 1 0 0 1 11'
    echo "out of range, out of order, no parent, a wrong depth"
    fold_rows '1 1 0 0 1 11' '1 2 0 0 1 11' '2 1 0 0 1 11' '2 0 3 1 1 -11'
    fold_rows '1 1 0 0 1 11' '1 2 0 0 1 11' '2 1 7 0 1 11' '2 1 0 0 1 11'
    fold_rows '1 1 0 0 1 11' '1 2 0 0 1 11' '2 1 0 2 1 11' '2 2 2 1 1 11'
    fold_rows '1 1 0 0 1 11' '1 2 0 0 1 11' '2 1 0 0 1 11' '2 2 1 0 1 -2147483648'
    echo "a wrong depth in a block that would go"
    fold_rows '1 1 0 0 1 11' '1 2 1 1 2 2' '1 3 0 0 1 11' '1 4 3 1 2 2' '1 5 4 3 3 3'
    echo "other files"
    fold deep.txt
    fold wrong.txt
    fold rules/some-device.txt
    fold over.txt
}

misused_fold() {
    echo "fold, wrong arguments"
    misused fold
    misused fold blocks.txt folded.txt pool.txt
    echo "fold, other files"
    misused fold no-such-file.txt folded.txt
    misused fold blocks.txt no-such-folder/folded.txt
    misused fold rules folded.txt
    echo "fold, refused where there is a file already"
    misused fold pool.txt folded.txt
    misused fold deep.txt folded.txt
}

{ accepted_foldings; usable_after_folding; refused_foldings; } > found
cp pool.txt folded.txt
checksums > found-before
misused_fold >> found
checksums > found-after
same "folding" "$here/expected-fold" found
same "files after wrong arguments of fold" found-before found-after
shown_in_manual blocks.txt fold examples/blocks.txt "$folder/folded.txt"
run cat folded.txt > found
in_manual "the rows of blocks.txt folded"

# A device's table folded by paths: of the rows with one path the first stays, under the first with its parent's path. The
# report goes to told.txt.
folded_by_awk() { # table
    awk '
        function row_text() { return sprintf("%*s%s/%s name %s value %s", 2 * $4, "", $1, $2, $5, $6) }
        NR == 1 { print; next }
        {
            path[$2] = ($3 == 0 ? "" : path[$3]) "/" $5 " " $6
            up = $3 == 0 ? 0 : first[path[$3]]
            if (path[$2] in first) {
                print row_text() " goes into " $1 "/" first[path[$2]] > "told.txt"
                gone++
                next
            }
            first[path[$2]] = $2
            if (up != $3) {
                print row_text() " moves from " $1 "/" $3 " to " $1 "/" up > "told.txt"
                moved++
            }
            print $1, $2, up, $4, $5, $6
        }
        END { printf "rows %d, gone %d, moved %d, left %d\n", NR - 1, gone, moved, NR - 1 - gone > "told.txt" }' "$1"
}

# All rows once more behind the last.
entered_twice() { # table
    awk 'NR == 1 { print; next }
        { line[NR] = $0; last = $2; print }
        END {
            for (i = 2; i <= NR; i++) {
                split(line[i], w, " ")
                print w[1], w[2] + last, w[3] == 0 ? 0 : w[3] + last, w[4], w[5], w[6]
            }
        }' "$1"
}

# Each row twice, with new numbers; what hangs under it hangs under the second. Or only the first of the two.
each_row_twice() { # table
    awk 'NR == 1 { print; next }
        { up = 2 * $3; print $1, 2 * $2 - 1, up, $4, $5, $6; print $1, 2 * $2, up, $4, $5, $6 }' "$1"
}
each_row_first() { # table
    awk 'NR == 1 { print; next } { print $1, 2 * $2 - 1, $3 == 0 ? 0 : 2 * $3 - 1, $4, $5, $6 }' "$1"
}

# What awk folds it to, and what the program does; folded.txt is left.
check_fold() { # table
    rm -f folded.txt again.txt told.txt
    folded_by_awk "$1" > whole
    run "$programs/fold" "$1" folded.txt > found
    same "report of $1" told.txt found
    same "$1 folded" whole folded.txt
    run "$programs/fold" folded.txt again.txt > found
    same "$1 folded twice" folded.txt again.txt
    run "$programs/collector" rules/some-device.txt folded.txt | sed -n '/refused/p' > found
    same "refusals of $1 folded" /dev/null found
}

foldings=0
check_device() { # table
    local rows last
    check_fold "$1"
    run cat folded.txt > once.txt
    rows=$(wc -l < once.txt)
    last=$(tail -n 1 once.txt | cut -d ' ' -f 2)
    if [ "$rows" -gt 1 ] && [ "$rows" -le 513 ] && [ "$last" -le 32767 ]; then
        entered_twice once.txt > twice.txt
        check_fold twice.txt
        same "$1 with all rows once more" once.txt folded.txt
        each_row_twice once.txt > twice.txt
        check_fold twice.txt
        each_row_first once.txt > whole
        same "$1 with each row twice" whole folded.txt
        foldings=$((foldings + 1))
    fi
}

# Pools share devices; each table is looked at once.
declare -A checked

# A pool that is accepted, or refused with 12, device by device; any other is refused as the collector refuses it.
check_folding() { # pool
    local device devices table folder_of_pool
    run "$programs/collector" rules/some-device.txt "$1" > whole
    if grep -q '^exit status' whole && ! grep -q 'refused, number 12,' whole; then
        rm -f folded.txt
        fold "$1" | sed '/^line /d' > found
        same "$1, which is refused" whole found
        return
    fi
    mapfile -t devices < <(sed 1d "$1" | cut -d ' ' -f 1 | sort -nu)
    if [ "${#devices[@]}" -gt 1 ]; then
        awk -v name="$1" 'NR == 2 { device = $1 } NR > 2 && $1 != device {
            print name ": refused, number 14, place " NR - 2 ": a row of another device"
            print "line " NR ": " $0
            print "exit status 1"
            exit
        }' "$1" > whole
        fold "$1" > found
        same "$1, several devices" whole found
    elif grep -q '^verdict' whole; then
        run "$programs/fold" "$1" folded.txt > found
        same "$1, nothing to fold" "$1" folded.txt
    fi
    folder_of_pool=$(cd "$(dirname "$1")" && pwd)
    for device in "${devices[@]}"; do
        table="${folder_of_pool##*/}-$(basename "$1" .txt)-$device.txt"
        awk -v d="$device" 'NR == 1 || $1 == d' "$1" > "$table"
        if [ -z "${checked[$(< "$table")]-}" ]; then
            check_device "$table"
            checked[$(< "$table")]=yes
        fi
    done
}

for pool in "$here"/*.txt "$here"/../samples/pools/*.txt full.txt over.txt none.txt taken.txt wide.txt one-row.txt \
    equal-roots.txt twin.txt alike.txt many.txt; do
    check_folding "$pool"
done
for name in $(sample_pools); do
    check_folding "samples/$name/pool.txt"
done
if [ "$foldings" -ge 40 ]; then
    passed=$((passed + 1))
else
    failed=$((failed + 1))
    echo "only $foldings devices were folded with rows entered twice"
fi

echo "examples: $passed passed, $failed failed"
[ "$failed" -eq 0 ]
