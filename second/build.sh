#!/usr/bin/env bash
# Builds the second programs, their unit tests and the generator of captures and
# questions.
#
#   build.sh OUTDIR
#
# Puts second_list, second_report, second_cycles, second_cases, the unit tests of
# each (unit_tests, unit_tests_report, unit_tests_cycles and unit_tests_cases) and
# generate into OUTDIR. RUSTC may name the compiler.
set -euo pipefail

if (($# != 1)); then
    echo "usage: build.sh OUTDIR" >&2
    exit 2
fi
out=$1
here=$(cd "$(dirname "${BASH_SOURCE[0]}")" && pwd)
rustc=${RUSTC:-rustc}
mkdir -p "$out"

# The two programs whose speed is measured are each compiled as one whole. Else
# rustc cuts them up by their modules, and calls from one room to another are not
# inlined.
"$rustc" -O -C codegen-units=1 --edition 2021 -o "$out/second_list" "$here/list.rs"
"$rustc" --test --edition 2021 -o "$out/unit_tests" "$here/list.rs"
"$rustc" -O -C codegen-units=1 --edition 2021 -o "$out/second_report" "$here/report.rs"
"$rustc" --test --edition 2021 -o "$out/unit_tests_report" "$here/report.rs"
"$rustc" -O --edition 2021 -o "$out/second_cycles" "$here/cycles.rs"
"$rustc" --test --edition 2021 -o "$out/unit_tests_cycles" "$here/cycles.rs"
"$rustc" -O --edition 2021 -o "$out/second_cases" "$here/cases.rs"
"$rustc" --test --edition 2021 -o "$out/unit_tests_cases" "$here/cases.rs"
"$rustc" -O --edition 2021 -o "$out/generate" "$here/generate/main.rs"
