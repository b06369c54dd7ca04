#!/usr/bin/env bash
# Tests beside the proofs: the first program on its stored inputs (tests/depots.sh); tools/list.sh and the program `plan` on samples/ and on
# what they refuse (tests/plan.sh); what the static libraries need and export; the C programs of tests/c; the Rust wrapper's example and words;
# and the cases of tests/src, libraries against an independent implementation.
#
#     tests/run.sh [--cases N] [--seed S]
#
# Builds target/staticlib/libengine.a and libdesk.a (tools/archives.sh). With SULGHETI_LIB set, the archives in that folder are tested instead.
# Builds crates/NAME/out/NAME for the programs depots, plan and console by `rt run`. Archives and programs that are there and newer than
# all of crates/ that rt did not make are left as they are: so the gate tests here the programs that it has just proved.
# Needs cargo, a C compiler and nm, on x86-64 Linux; no network. N is the number of random cases (200,000 unless given) and S
# their seed. The last line has the number of all cases of tests/src; exit status 0: all passed.
set -euo pipefail
[ -z "${SULGHETI_LIB:-}" ] || SULGHETI_LIB=$(cd "$SULGHETI_LIB" && pwd)
cd "$(dirname "$0")/.."
for tool in cargo "${CC:-cc}" nm; do
    command -v "$tool" >/dev/null || { echo "tests/run.sh: $tool is not installed" >&2; exit 2; }
done
mkdir -p target

if [ -z "${SULGHETI_LIB:-}" ]; then
    bash tools/archives.sh
    SULGHETI_LIB=$PWD/target/staticlib
fi

export SULGHETI_LIB

# the first program; lists in words, and their plans for a person to read
log=$PWD/target/programs.log
for name in depots plan console; do
    program=crates/$name/out/$name
    if [ ! -f "$program" ] || [ -n "$(find crates.txt crates/*/* -name out -prune -o -newer "$program" -print -quit)" ]; then
        (cd "crates/$name" && rt run) </dev/null >"$log" 2>&1 || { cat "$log"; exit 1; }
    fi
done
bash tests/depots.sh
bash tests/plan.sh

# both libraries need memcpy and memset alone, and export the functions that the header declares
for name in engine desk; do
    needed=$(nm -u "$SULGHETI_LIB/lib$name.a" | awk '$1 == "U" { print $2 }' | sort -u | tr '\n' ' ')
    [ "$needed" = "memcpy memset " ] || { echo "lib$name.a needs: $needed"; exit 1; }
done
exported=$(nm -g --defined-only "$SULGHETI_LIB/libengine.a" "$SULGHETI_LIB/libdesk.a" | awk 'NF == 3 { print $3 }' | sort)
declared=$(sed -n 's/^int64_t \(sulgheti_[a-z0-9_]*\)(.*/\1/p' include/sulgheti.h | sort)
[ "$exported" = "$declared" ] || { echo "exported: $exported"; echo "declared: $declared"; exit 1; }
echo "libengine.a, libdesk.a: need memcpy and memset alone, export the $(echo "$declared" | wc -l) functions of the header"

# the C programs; memcpy and memset are looked up before main (-z now), so that the stack that stack_t prints is the calls' own
for name in check_t convert_t desk_t read_only_t stack_t; do
    "${CC:-cc}" -std=c99 -Wall -Wextra -Werror -O2 -pthread -Wl,-z,now -Iinclude "tests/c/$name.c" "$SULGHETI_LIB/libengine.a" "$SULGHETI_LIB/libdesk.a" -o "target/$name"
    "target/$name" || { echo "$name: failed, status $?"; exit 1; }
done
echo "check_t, convert_t, desk_t, read_only_t, stack_t: from C, in either edition, T's plan passes and is held, a list is written out and loaded again, a list and its plan go from one edition's desk to the other's and back, a desk goes over to edition 2 with its plan and without one, a list with a roll is loaded, its crews count, a depot that no site names is in the last group and it is written out, questions are asked, the list is written out, a desk goes over and a list and its plan are converted in memory that cannot be written, a store of another length or of the other edition is not read, every call runs on the stated stack"

# the wrapper's example and words, then the cases
export CARGO_TARGET_DIR=$PWD/target/cargo
cargo test --offline --quiet --manifest-path rust/Cargo.toml >target/wrapper.log 2>&1 || { cat target/wrapper.log; exit 1; }
cargo build --offline --quiet --release --manifest-path tests/Cargo.toml
exec "$CARGO_TARGET_DIR/release/engine-tests" "$@"
