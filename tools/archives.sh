#!/usr/bin/env bash
# Proves the crates of the static libraries and writes target/staticlib/libengine.a (Check, Make, lists and plans between editions)
# and target/staticlib/libdesk.a (the desk), by `rt lib`: each unless it is there and newer than all of crates/ that rt did not make.
#
#     tools/archives.sh
#
# `rt ci` clears what `rt lib` left in the crates' folders, so the archives are kept apart from them.
set -euo pipefail
cd "$(dirname "$0")/.."
mkdir -p target/staticlib
log=$PWD/target/staticlib.log
for name in engine desk; do
    archive=target/staticlib/lib$name.a
    if [ ! -f "$archive" ] || [ -n "$(find crates.txt crates/*/* -name out -prune -o -newer "$archive" -print -quit)" ]; then
        (cd "crates/$name" && rt lib) >"$log" 2>&1 || { cat "$log"; exit 1; }
        cp "crates/$name/out/lib$name.a" "$archive"
        echo "$archive: $(tail -n 1 "$log")"
    fi
done
