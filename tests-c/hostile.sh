#!/usr/bin/env bash
# Damaged files, values, sets of rules, plans, templates, columns and tables to fold through the C interface, the harness
# built with sanitizers.
#
#   tests-c/hostile.sh [CASES [SEED]]   default: 100000 cases from seed 1
set -eu
cd "$(dirname "$0")/.."
log=$(mktemp)
trap 'rm -f "$log"' EXIT
status=0
make --no-print-directory -s build/sanitized/hostile &&
    build/sanitized/hostile "${1:-100000}" "${2:-1}" > "$log" || status=$?
cat "$log"
# A case that ends the program leaves it without its last line.
case $(tail -n 1 "$log") in
'hostile: '*) ;;
*) echo "hostile: 0 passed, 1 failed" ;;
esac
[ "$status" -eq 0 ]
