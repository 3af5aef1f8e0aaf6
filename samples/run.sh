#!/usr/bin/env bash
# Runs the program on each case of cases.txt and compares all that it prints with what the list says.
#
#   samples/run.sh [PROGRAM]             all cases; default: target/bin/gabzeril, which `rt check` builds
#   samples/run.sh PROGRAM CASE          prints what the program prints for one case
#   samples/run.sh --lay-out CASE DIR    writes the case's rule.txt and pool.txt into a folder, to play with
set -eu
here=$(cd "$(dirname "$0")" && pwd)
work=$(mktemp -d)
trap 'rm -rf "$work"' EXIT

complain() { # text
    echo "$1" >&2
    exit 1
}

usage() {
    complain "$(sed -n 's/^#   //p' "$here/run.sh")"
}

# The list without its comments: name, rule, devices, prints.
cases() {
    awk '{ sub(/#.*/, "") } NF { $1 = $1; print }' "$here/cases.txt"
}

# The rows of one device, or nothing where the list has no such device.
rows() { # device
    awk -v head="[$1]" '/^\[/ { on = $0 == head; next } on && NF' "$here/devices.txt"
}

# A pool: the first line of devices.txt that is no comment, then the rows of the devices in their order.
pool() { # names joined by +
    local name
    awk '!/^#/ { print; exit }' "$here/devices.txt"
    [ "$1" != none ] || return 0
    for name in ${1//+/ }; do
        if [ -z "$(rows "$name")" ]; then
            echo "no device $name in samples/devices.txt" >&2
            return 1
        fi
        rows "$name"
    done
}

# Writes a case's rule.txt and pool.txt. A file of pools/ is taken byte for byte.
lay_out() { # rule devices folder
    if [ "$1" != - ]; then
        cp "$here/rules/$1.txt" "$3/rule.txt" || return
    fi
    case $2 in
    -) ;;
    pools/*) cp "$here/$2.txt" "$3/pool.txt" ;;
    *) pool "$2" > "$3/pool.txt" ;;
    esac
}

# Lays out the case of that name.
lay_out_case() { # name folder
    local line rule devices
    line=$(cases | awk -v name="$1" '$1 == name')
    [ -n "$line" ] || complain "no case $1 in samples/cases.txt"
    read -r _ rule devices _ <<< "$line"
    lay_out "$rule" "$devices" "$2"
}

# Both lines that the program must print.
expected() { # prints
    case $1 in
    'refused '*) printf 'refused place\n%s\n' "${1#refused }" ;;
    *) printf 'verdict rows branch full marks\n%s\n' "$1" ;;
    esac
}

# What the program prints; its failure becomes part of that.
found() { # folder
    (cd "$1" && "$program" < /dev/null 2>&1) || echo "exit status $?"
}

# A name that stands twice is refused by mkdir.
check() { # name rule devices prints
    mkdir "$work/$1" &&
        lay_out "$2" "$3" "$work/$1" &&
        diff -u --label expected --label found <(expected "$4") <(found "$work/$1")
}

# Rules, devices and pools that no case uses.
unused() {
    cases | while read -r _ rule devices _; do
        echo "rules/$rule"
        case $devices in
        pools/*) echo "$devices" ;;
        *) echo "device ${devices//+/$'\n'device }" ;;
        esac
    done | sort > "$work/used"
    {
        cd "$here" && find rules pools -type f | sed 's/\.txt$//'
        sed -n 's/^\[\(.*\)\]$/device \1/p' devices.txt
    } | sort | comm -13 "$work/used" -
}

check_all() {
    local passed=0 failed=0 name rule devices prints file
    while read -r name rule devices prints; do
        if check "$name" "$rule" "$devices" "$prints"; then
            passed=$((passed + 1))
        else
            failed=$((failed + 1))
            echo "failed: $name"
        fi
    done < <(cases)
    while read -r file; do
        failed=$((failed + 1))
        echo "no case uses $file"
    done < <(unused)
    echo "samples: $passed passed, $failed failed"
    [ "$failed" -eq 0 ] && [ "$passed" -gt 0 ]
}

# Files that a user may have changed are not written over.
lay_out_for_user() { # name folder
    local file
    lay_out_case "$1" "$work"
    mkdir -p "$2"
    for file in rule.txt pool.txt; do
        [ ! -e "$2/$file" ] || complain "$2 has a $file already"
    done
    cp -r "$work/." "$2"
}

if [ "${1-}" = --lay-out ] && [ $# -eq 3 ]; then
    lay_out_for_user "$2" "$3"
    exit
fi
case ${1-} in
-*) usage ;;
esac
[ $# -le 2 ] || usage
program=${1:-$here/../target/bin/gabzeril}
if [ ! -x "$program" ]; then
    echo "no program to run: rt check builds target/bin/gabzeril"
    echo "samples: 0 passed, 1 failed"
    exit 1
fi
program=$(cd "$(dirname "$program")" && pwd)/$(basename "$program")

if [ $# -eq 2 ]; then
    lay_out_case "$2" "$work"
    cd "$work"
    "$program"
else
    check_all
fi
