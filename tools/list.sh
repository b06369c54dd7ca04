#!/usr/bin/env bash
# Turns a list in words into a list record.
#
#     tools/list.sh samples/coast.txt > coast.list          # or, from standard input: tools/list.sh < samples/coast.txt
#     tools/list.sh -2 samples/aquatic.txt > aquatic.list   # a list of edition 2
#
# A site is a line of three decimal numbers apart by spaces or tabs: its first depot, its second depot
# (0 to 63, the same twice for an own site) and its litres: 1 to 65535, or with -2 1 to 4294967295. With -2 a line
# `crews DEPOT N` gives a depot N crews, 1 to 9, whether a site names it or not, and the list a roll: in it every other
# depot that a site names has one crew. Blank lines
# are passed over, and so is all from a `#` to the end of a line, a carriage return at the end and a UTF-8 mark at the front.
# A list has at most 512 sites; a file of blank lines and comments alone is the list without sites.
# Anything else is refused: a line that is none of these, has a byte 00 or 01 or over 1,000 bytes; an input
# that has no bytes or over 1,000,000, or cannot be read. One line on standard error says what and where;
# then nothing is written to standard output, and the exit status is 1.
[ -n "${BASH_VERSION:-}" ] || { echo "list.sh: needs bash: run tools/list.sh or bash tools/list.sh" >&2; exit 1; }
set -euf -o pipefail
export LC_ALL=C
usage='usage: tools/list.sh [-2] [FILE]    writes the list record, with -2 of edition 2, of the sites in FILE, or on standard input'

refuse() {
    echo "list.sh: $1" >&2
    exit 1
}

# whether $1 is a decimal number from $2 to $3
in_range() {
    [[ $1 =~ ^0*([0-9]{1,10})$ ]] && ((10#${BASH_REMATCH[1]} >= $2 && 10#${BASH_REMATCH[1]} <= $3))
}

# appends the number $1 to the record as an escape of each of its $2 bytes, low byte first
record=
put() {
    local value=$((10#$1)) width=$2 byte
    for ((; width > 0; width--)); do
        printf -v byte '\\x%02x' $((value & 255))
        record+=$byte
        value=$((value >> 8))
    done
}

list=LS site=ST width=2 most=65535
if [ "${1-}" = -2 ]; then
    list=L2 site=S2 width=4 most=4294967295
    shift
fi
case $#:${1-} in
0:)
    name='standard input'
    [ -e /dev/stdin ] || refuse "$name: cannot be read"
    ;;
1:--help | 1:-h)
    echo "$usage"
    exit
    ;;
1:-* | 1:) refuse "$usage" ;;
1:*)
    name=$1
    [ -e "$1" ] || refuse "$1: no such file"
    ;;
*) refuse "$usage" ;;
esac
[ ! -d "${1-/dev/stdin}" ] || refuse "$name: a directory, not a file"

# the input and a full stop, which keeps the newlines at its end; bash would drop a zero byte, so it becomes a 01
bytes() {
    if [ $# -eq 0 ]; then head -c 1000001; else head -c 1000001 <"$1"; fi | tr '\000' '\001'
}
input=$(bytes "$@" 2>/dev/null && echo .) || refuse "$name: cannot be read"
input=${input%.}
[ -n "$input" ] || refuse "$name: no bytes at all (for a list without sites, write a comment)"
[ ${#input} -le 1000000 ] || refuse "$name: more than 1000000 bytes: not a list in words"

line=0
sites=0
crews=() # of each depot that a line gives some
named=() # 1 for each depot that a site names
while IFS= read -r text; do
    line=$((line + 1))
    [ ${#text} -le 1000 ] || refuse "line $line: more than 1000 bytes"
    [[ $text != *$'\001'* ]] || refuse "line $line: a byte 00 or 01, which no text has"
    text=${text%$'\r'}
    words=(${text%%#*})
    [ ${#words[@]} -gt 0 ] || continue
    if [ "${words[0]}" = crews ]; then
        [ ${#words[@]} -eq 3 ] || refuse "line $line: not a depot and a number: crews DEPOT N"
        [ $list = L2 ] || refuse "line $line: crews need a list of edition 2: use the option -2"
        in_range "${words[1]}" 0 63 || refuse "line $line: the depot is not a number from 0 to 63"
        in_range "${words[2]}" 1 9 || refuse "line $line: the crews are not a number from 1 to 9"
        depot=$((10#${words[1]}))
        [ -z "${crews[depot]-}" ] || refuse "line $line: the crews of depot $depot a second time"
        crews[depot]=$((10#${words[2]}))
        continue
    fi
    [ ${#words[@]} -eq 3 ] || refuse "line $line: not three numbers: FIRST SECOND LITRES"
    in_range "${words[0]}" 0 63 || refuse "line $line: the first depot is not a number from 0 to 63"
    in_range "${words[1]}" 0 63 || refuse "line $line: the second depot is not a number from 0 to 63"
    if ! in_range "${words[2]}" 1 $most; then
        in_range "${words[2]}" 1 4294967295 && refuse "line $line: litres above 65535 need a list of edition 2: use the option -2"
        refuse "line $line: the litres are not a number from 1 to $most"
    fi
    sites=$((sites + 1))
    [ "$sites" -le 512 ] || refuse "line $line: more than 512 sites"
    record+=$site
    put "${words[0]}" 1
    put "${words[1]}" 1
    put "${words[2]}" $width
    named[10#${words[0]}]=1 named[10#${words[1]}]=1
done <<<"${input#$'\xef\xbb\xbf'}"

# the roll, where a line gives crews
if [ ${#crews[@]} -gt 0 ]; then
    record+=DR
    for ((depot = 0; depot < 64; depot++)); do put "${crews[depot]-${named[depot]-0}}" 1; done
fi

body=$record
record=$list
put "$sites" 2
printf '%b' "$record$body"
