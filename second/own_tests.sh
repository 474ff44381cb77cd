#!/usr/bin/env bash
# Runs the second programs' own tests.
#
#   own_tests.sh DIR
#
# DIR is the folder that build.sh filled.
set -euo pipefail

if (($# != 1)); then
    echo "usage: own_tests.sh DIR" >&2
    exit 2
fi
said=$(mktemp)
trap 'rm -f "$said"' EXIT

for tests in unit_tests unit_tests_report unit_tests_cycles unit_tests_cases; do
    if ! "$1/$tests" --quiet >"$said" 2>&1; then
        cat "$said"
        echo "comparison: the second program's own tests fail"
        exit 1
    fi
    grep 'test result' "$said"
done
