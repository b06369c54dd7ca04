#!/usr/bin/env bash
# Tests of the first program beside its sample: tests/depots/NAME.in on standard input gives NAME.out, also in pieces.
# Needs crates/depots/out/depots, which `rt run` in crates/depots builds.
#   none           no input at all
#   row1 to row6   a list that the row refuses: a wrong head mark, 513 sites, a length that is one short, a wrong site mark, a depot above 63, no litres
#   full           512 sites: site i is an own site of depot i mod 64, each of 65,535
#   edition2, ..   lists of edition 2, which the first program refuses by row 1: samples/aquatic.txt, no sites, and 512 sites of 4,294,967,295
set -euo pipefail
cd "$(dirname "$0")/.."

fail() {
    echo "tests/depots.sh: $1" >&2
    exit 1
}

# the file in three pieces: its first byte, the 600 bytes behind it, and the rest
pieces() {
    head -c 1 "$1"
    sleep 0.05
    tail -c +2 "$1" | head -c 600
    sleep 0.05
    tail -c +602 "$1"
}

for list in tests/depots/*.in; do
    want=${list%.in}.out
    crates/depots/out/depots <"$list" | cmp - "$want" || fail "$list: not the stored output"
    pieces "$list" | crates/depots/out/depots | cmp - "$want" || fail "$list in pieces: not the stored output"
done
echo "depots.sh: each list of tests/depots/ gives its stored output"
