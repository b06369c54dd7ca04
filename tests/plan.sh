#!/usr/bin/env bash
# Tests of tools/list.sh and the program `plan`: the lists of samples/ give the plans of tests/plans/, also out of a desk's list in a file, and what cannot be used is refused
# in words, with nothing on standard output and status 1 from list.sh.
# Needs crates/plan/out/plan and crates/console/out/console, which `rt run` in each of the two folders builds.
set -euo pipefail
cd "$(dirname "$0")/.."
work=$(mktemp -d)
trap 'rm -rf "$work"' EXIT

fail() {
    echo "tests/plan.sh: $1" >&2
    exit 1
}

hex() {
    od -An -v -tx1 | tr -d ' \n'
}

# the samples, in either edition where their litres fit: the plan printed is the stored one, and the plan that Make writes passes Check
for text in samples/*.txt; do
    name=$(basename "$text")
    for edition in '' -2; do
        case $name$edition in aquatic.txt | crews.txt) continue ;; esac
        tools/list.sh $edition <"$text" >"$work/list"
        crates/plan/out/plan <"$work/list" | diff "tests/plans/$name" - || fail "$text $edition: not the stored plan"
        list=$(hex <"$work/list")
        read -r _ length bytes < <(echo "make $list 5765" | crates/console/out/console)
        [ "$(echo "check $list ${bytes:0:2*length}" | crates/console/out/console)" = passes ] || fail "$text $edition: its plan does not pass"
    done
done

# a sample's list and its plan in edition 2, as README has it, are the list that `list.sh -2` writes and a plan that passes, and go back to the same bytes
both_ways() {
    local list list2 plan n m up down
    list=$(tools/list.sh "$1" | hex)
    list2=$(tools/list.sh -2 "$1" | hex)
    read -r _ n plan < <(echo "make $list 3717" | crates/console/out/console)
    plan=${plan:0:2*n}
    read -r _ n m up down < <(echo "upgrade $list $plan 4100 5765" | crates/console/out/console)
    [ "${up:0:2*n}" = "${list2^^}" ] || fail "$1: upgraded, it is not the list that list.sh -2 writes"
    [ "$(echo "check ${up:0:2*n} ${down:0:2*m}" | crates/console/out/console)" = passes ] || fail "$1: upgraded, its plan does not pass"
    read -r _ n m list2 down < <(echo "downgrade ${up:0:2*n} ${down:0:2*m} 3076 3717" | crates/console/out/console)
    [ "${list2:0:2*n} ${down:0:2*m}" = "${list^^} $plan" ] || fail "$1: there and back are other bytes"
}
for text in samples/*.txt; do
    case $text in
    samples/aquatic.txt | samples/crews.txt)
        read -r answer row _ < <(echo "downgrade $(tools/list.sh -2 "$text" | hex) 3076" | crates/console/out/console)
        [ "$answer $row" = 'refused 21' ] || fail "$text: downgraded, it is not refused by row 21"
        ;;
    *) both_ways "$text" ;;
    esac
done

# a desk's list in a file, as README has it: changed, with a site more, written out and read by `plan`; unchanged it is the file that was loaded
written_out() {
    read -r _ length bytes < <(printf '%s\n' "$@" 'list 4166' | crates/console/out/console | tail -n 1)
    printf '%b' "$(sed 's/../\\x&/g' <<<"${bytes:0:2*length}")"
}
tools/list.sh samples/coast.txt >"$work/list"
list=$(hex <"$work/list")
written_out "load $list" | cmp - "$work/list" || fail "the list written out is not the one loaded"
[ "$(written_out "load $list" 'change 0 900' 'add 8 8 60' | crates/plan/out/plan | sed -n 1,2p)" = "16 sites, 8 depots, 4 groups
group 1: depots 1 2 3 carry 2655 litres, 885 each" ] || fail "the list written out is not the desk's"
tools/list.sh -2 samples/aquatic.txt >"$work/list"
list=$(hex <"$work/list")
written_out 'table2 10' "load $list" | cmp - "$work/list" || fail "the list of edition 2 written out is not the one loaded"
[ "$(written_out 'table2 11' "load $list" 'change 1 4294967295' 'add 6 6 65536' | crates/plan/out/plan | sed -n 1,4p)" = "11 sites, 7 depots, 6 groups
group 1: depot 0 carries 4294967295 litres
group 2: depot 1 carries 70000 litres
group 3: depot 6 carries 65536 litres" ] || fail "the list of edition 2 written out is not the desk's"

tools/list.sh -2 samples/crews.txt >"$work/list"
list=$(hex <"$work/list")
written_out 'table2 5' "load $list" | cmp - "$work/list" || fail "the list with a roll written out is not the one loaded"
[ "$(written_out 'table2 5' "load $list" 'change 0 1600' 'add 3 3 60' | crates/plan/out/plan | sed -n 1,2p)" = "5 sites, 4 depots, 3 groups
group 1: depots 0 1 carry 1600 litres, 400 per crew" ] || fail "the list with a roll written out is not the desk's"
# the same with a depot that opens empty, and then with a site for it
{ cat samples/crews.txt && echo 'crews 9 2'; } | tools/list.sh -2 >"$work/list"
list=$(hex <"$work/list")
written_out 'table2 5' "load $list" | cmp - "$work/list" || fail "the list with a depot without sites written out is not the one loaded"
crates/plan/out/plan <"$work/list" | diff <(sed -e '1s/.*/4 sites, 5 depots, 4 groups/' -e '/^group 3/a group 4: depot 9 carries 0 litres, 0 per crew' tests/plans/crews.txt) - || fail "crews.txt and a depot without sites: not its plan"
[ "$(written_out 'table2 5' "load $list" 'add 9 9 60' | crates/plan/out/plan | sed -n '1p;/depot 9/p')" = "5 sites, 5 depots, 4 groups
group 4: depot 9 carries 60 litres, 30 per crew
site 4: depot 9 brings 60 of 60 litres" ] || fail "the depot with a site: not its plan"

# the records that document 01 gives
tools/list.sh <samples/two.txt | cmp - crates/depots/stdin || fail "two.txt: not the sample of depots"
[ "$(tools/list.sh <samples/t.txt | hex)" = 4c530100535400010a00 ] || fail "t.txt: not T"
[ "$(tools/list.sh -2 <samples/t.txt | hex)" = 4c320100533200010a000000 ] || fail "t.txt: not T in edition 2"

# a file by name, and its usage
tools/list.sh samples/two.txt | cmp - crates/depots/stdin || fail "two.txt by name"
tools/list.sh -2 samples/aquatic.txt | cmp - tests/depots/edition2.in || fail "aquatic.txt by name"
usage='usage: tools/list.sh [-2] [FILE]    writes the list record, with -2 of edition 2, of the sites in FILE, or on standard input'
[ "$(tools/list.sh --help)" = "$usage" ] || fail "--help"

# no sites; no newline at the end, comments, leading zeros, carriage returns, a UTF-8 mark, the largest figures
[ "$(printf '# none\n' | tools/list.sh | crates/plan/out/plan)" = "0 sites, 0 depots, 0 groups" ] || fail "no sites"
[ "$(printf '\n\n' | tools/list.sh | hex)" = 4c530000 ] || fail "blank lines"
[ "$(printf '# a\n\n\t08 063  065535 # b' | tools/list.sh | hex)" = 4c5301005354083fffff ] || fail "one site"
[ "$(printf '\xef\xbb\xbf0 1 10\r\n# \xe9\r\n' | tools/list.sh | hex)" = 4c530100535400010a00 ] || fail "a UTF-8 mark and carriage returns"
[ "$(printf '0 1 10 #%*s' 992 '' | tools/list.sh | hex)" = 4c530100535400010a00 ] || fail "a line of 1000 bytes"
for ((i = 0; i < 512; i++)); do echo "$((i % 64)) $((i % 64)) 65535"; done >"$work/most"
tools/list.sh <"$work/most" | cmp - tests/depots/full.in || fail "512 sites"
[ "$(printf '# none\n' | tools/list.sh -2 | crates/plan/out/plan)" = "0 sites, 0 depots, 0 groups" ] || fail "no sites in edition 2"
[ "$(printf '# none\n' | tools/list.sh -2 | hex)" = 4c320000 ] || fail "no sites in edition 2: not the record"
[ "$(printf '08 063 0004294967295\n1 2 65536' | tools/list.sh -2 | hex)" = 4c3202005332083fffffffff5332010200000100 ] || fail "two sites in edition 2"
[ "$(printf 'crews 63 9 # nine\n0 1 12\r\n\tcrews 00 03\n' | tools/list.sh -2 | hex)" = "4c320100533200010c00000044520301$(printf '%0122d' 0)09" ] || fail "a list with a roll"
[ "$(printf '0 1 12\ncrews 0 3' | tools/list.sh -2 | crates/plan/out/plan)" = "1 site, 2 depots, 1 group
group 1: depots 0 1 carry 12 litres, 3 per crew
site 0: depot 0 brings 9, depot 1 brings 3 of 12 litres" ] || fail "three crews and one"
# depots with crews that no site names: the last group
[ "$(printf 'crews 5 1\n' | tools/list.sh -2 | crates/plan/out/plan)" = "0 sites, 1 depot, 1 group
group 1: depot 5 carries 0 litres" ] || fail "a roll without sites"
[ "$(printf 'crews 63 9\ncrews 5 1\n' | tools/list.sh -2 | crates/plan/out/plan)" = "0 sites, 2 depots, 1 group
group 1: depots 5 63 carry 0 litres, 0 per crew" ] || fail "two depots without sites"
[ "$(printf '1 2 12\ncrews 0 2\ncrews 1 3\ncrews 63 1' | tools/list.sh -2 | crates/plan/out/plan)" = "1 site, 4 depots, 2 groups
group 1: depots 1 2 carry 12 litres, 3 per crew
group 2: depots 0 63 carry 0 litres, 0 per crew
site 0: depot 1 brings 9, depot 2 brings 3 of 12 litres" ] || fail "depots without sites behind others"
[ "$(for ((i = 0; i < 64; i++)); do echo "crews $i 9"; done | tools/list.sh -2 | crates/plan/out/plan | sed 's/depots 0 .* carry/carry/')" = "0 sites, 64 depots, 1 group
group 1: carry 0 litres, 0 per crew" ] || fail "64 depots without sites"
[ "$(printf 'L2\x00\x00DR' | cat - <(head -c 64 /dev/zero) | crates/plan/out/plan)" = "0 sites, 0 depots, 0 groups" ] || fail "a roll without crews"
[ "$(for ((i = 0; i < 64; i++)); do echo "$i $i 7"; echo "crews $i 9"; done | tools/list.sh -2 | crates/plan/out/plan | sed -n '1,2p' | sed 's/depots 0 .* carry/carry/')" = "64 sites, 64 depots, 1 group
group 1: carry 448 litres, 448/576 per crew" ] || fail "nine crews each"
sed 's/65535$/4294967295/' "$work/most" | tools/list.sh -2 >"$work/list"
[ "$(crates/plan/out/plan <"$work/list" | sed -n '1p;$p')" = "512 sites, 64 depots, 1 group
site 511: depot 63 brings 4294967295 of 4294967295 litres" ] || fail "512 sites in edition 2"

# unused WORDS COMMAND ..: the command says the words alone, writes nothing and ends with status 1
unused() {
    local words=$1 status=0
    shift
    "$@" >"$work/out" 2>"$work/said" || status=$?
    [ "$status" -eq 1 ] || fail "$*: status $status, not 1 with '$words'"
    [ ! -s "$work/out" ] || fail "$*: something is written"
    [ "$(cat "$work/said")" = "list.sh: $words" ] || fail "$*: $(cat "$work/said")"
}
unused "$usage" tools/list.sh samples/t.txt samples/two.txt
unused "$usage" tools/list.sh samples/t.txt -2
unused "$usage" tools/list.sh -2 -2
unused "$usage" tools/list.sh -2 samples/t.txt samples/two.txt
unused "$usage" tools/list.sh -1
unused "$usage" tools/list.sh --sites
unused "$usage" tools/list.sh ''
unused "$work/nosuch: no such file" tools/list.sh "$work/nosuch"
unused "$work/nosuch: no such file" tools/list.sh -2 "$work/nosuch"
unused "line 7: litres above 65535 need a list of edition 2: use the option -2" tools/list.sh samples/aquatic.txt
unused "samples: a directory, not a file" tools/list.sh samples
unused "standard input: a directory, not a file" tools/list.sh <samples
unused "standard input: cannot be read" tools/list.sh <&-
[ ! -e /proc/self/clear_refs ] || unused "/proc/self/clear_refs: cannot be read" tools/list.sh /proc/self/clear_refs
unused "/dev/null: no bytes at all (for a list without sites, write a comment)" tools/list.sh /dev/null
unused "standard input: no bytes at all (for a list without sites, write a comment)" tools/list.sh </dev/null
unused "standard input: more than 1000000 bytes: not a list in words" tools/list.sh < <(head -c 1000001 /dev/zero)
if command -v dash >/dev/null; then
    unused "needs bash: run tools/list.sh or bash tools/list.sh" dash tools/list.sh samples/t.txt
fi

# refused TEXT LINE WORDS [OPTION]: list.sh names the line
refused() {
    printf '%b' "$1" >"$work/text"
    unused "line $2: $3" tools/list.sh ${4-} "$work/text"
}
refused '0 1 1\00002\n' 1 'a byte 00 or 01, which no text has'
refused '0 1 12\n# \0000\n' 2 'a byte 00 or 01, which no text has'
refused "0 1 9\n#$(printf '%*s' 1000 '')" 2 'more than 1000 bytes'
refused '0 1 9\n1 2\n' 2 'not three numbers: FIRST SECOND LITRES'
refused '0 1 9 9\n' 1 'not three numbers: FIRST SECOND LITRES'
refused '# a\n\n64 1 9\n' 3 'the first depot is not a number from 0 to 63'
refused '0x1 1 9\n' 1 'the first depot is not a number from 0 to 63'
refused '0 64 9\n' 1 'the second depot is not a number from 0 to 63'
refused '0 -1 9\n' 1 'the second depot is not a number from 0 to 63'
refused '0 * 9\n' 1 'the second depot is not a number from 0 to 63'
refused '0 1 0\n' 1 'the litres are not a number from 1 to 65535'
refused '0 1 65536\n' 1 'litres above 65535 need a list of edition 2: use the option -2'
refused '0 1 4294967295\n' 1 'litres above 65535 need a list of edition 2: use the option -2'
refused '0 1 4294967296\n' 1 'the litres are not a number from 1 to 65535'
refused '0 1 18446744073709551617\n' 1 'the litres are not a number from 1 to 65535'
refused '0 1 9.5' 1 'the litres are not a number from 1 to 65535'
for litres in 0 4294967296 9999999999 18446744073709551617 -1 70000.5; do
    refused "0 1 70000\n0 1 $litres\n" 2 'the litres are not a number from 1 to 4294967295' -2
done
refused '0 1 9\ncrews 0 1\n' 2 'crews need a list of edition 2: use the option -2'
refused 'crews 0\n' 1 'not a depot and a number: crews DEPOT N' -2
refused 'crews 64 1\n' 1 'the depot is not a number from 0 to 63' -2
refused '0 1 9\ncrews 0 0\n' 2 'the crews are not a number from 1 to 9' -2
refused 'crews 0 10\n' 1 'the crews are not a number from 1 to 9' -2
refused 'crews 0 1\ncrews 00 2\n' 2 'the crews of depot 0 a second time' -2
refused "$(cat "$work/most")\n0 0 1\n" 513 'more than 512 sites'

# said ROW RECORD WORDS: the program refuses tests/depots/rowROW.in and the record, of edition 2, in the words
said() {
    [ "$(crates/plan/out/plan <"tests/depots/row$1.in")" = "refused $1: $3" ] || fail "row $1"
    [ "$(printf "$2" | crates/plan/out/plan)" = "refused $1: $3" ] || fail "row $1 in edition 2"
}
said 1 'L2\x00' 'the list has under 4 bytes or begins neither with 4C 53 nor with 4C 32'
said 2 'L2\x01\x02' 'the list has more than 512 sites'
said 3 'L2\x01\x00ST\x00\x01\x0A\x00' "the list's length is not 4 + 6 x sites or, if it begins with 4C 32, 4 + 8 x sites or 66 more with a roll"
said 4 'L2\x01\x00ST\x00\x01\x0A\x00\x00\x00' 'a site does not begin with 53 54 or, if the list begins with 4C 32, with 53 32; or its roll does not begin with 44 52'
said 5 'L2\x01\x00S2\x40\x01\x0A\x00\x00\x00' 'a site names a depot above 63'
said 6 'L2\x01\x00S2\x00\x01\x00\x00\x00\x00' 'a site has 0 litres'
roll_said() {
    [ "$(printf "L2\x01\x00S2\x00\x01\x0A\x00\x00\x00$2" | cat - <(head -c "$3" /dev/zero) | crates/plan/out/plan)" = "refused $1" ] || fail "a roll: $1"
}
roll_said "3: the list's length is not 4 + 6 x sites or, if it begins with 4C 32, 4 + 8 x sites or 66 more with a roll" 'DR\x03\x01' 61
roll_said '4: a site does not begin with 53 54 or, if the list begins with 4C 32, with 53 32; or its roll does not begin with 44 52' 'RD\x03\x01' 62
roll_said '22: a depot has more than 9 crews in the roll' 'DR\x00\x01\x0A' 61
roll_said '23: a site names a depot that has no crew in the roll' 'DR\x03\x00\x09' 61
[ "$(crates/plan/out/plan </dev/null)" = "refused 1: the list has under 4 bytes or begins neither with 4C 53 nor with 4C 32" ] || fail "no input"

echo "plan.sh: lists in words give the stored plans, and bad ones are refused"
