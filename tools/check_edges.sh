#!/usr/bin/env bash
# Runs the built program at the edges that no clause reaches, where it meets the host: closed and broken standard input,
# a full output, input that comes in pieces, input of more than one read, an executable that names its bytes again and again,
# words that aren't text, and no words. Compares status, standard output and standard error of each. Needs nothing but this shell.
#
#     tools/check_edges.sh [WWT]
#
# WWT is the built program, crates/wwt/out/wwt if it isn't given. Where it isn't built, one line says so, and nothing fails.
set -u
wwt=${1:-$(dirname "$0")/../crates/wwt/out/wwt}
if [ ! -x "$wwt" ]; then
    echo "edges: skipped, there is no $wwt"
    exit 0
fi
room=$(mktemp -d) || exit 1
trap 'rm -rf "$room"' EXIT

usage='wwt: usage: run [--workers W] [--trace] [--memory] [--budget B] MACHINE, check MACHINE, load NUMBER [--workers W], dis IMAGE, flat'
failed=0

# Compares a run with what is wanted: its name, its status, the first line of standard output, and standard error.
# (The run's own status stands in $room/status, its outputs in $room/out and $room/err.)
expect() {
    local status out err
    status=$(<"$room/status")
    IFS= read -r out <"$room/out"
    err=$(<"$room/err")
    if [ "$status" = "$2" ] && [ "$out" = "$3" ] && [ "$err" = "$4" ]; then
        echo "edge '$1': as wanted"
    else
        echo "edge '$1': status $status, output '$out', error '$err'"
        failed=1
    fi
}

# A program that prints one letter, in six words, and exits by a code (its low byte stands in \x..).
letter() {
    printf '\x13\x05\x10\x04\x93\x08\x10\x00\x73\x00\x00\x00\x93\x08\xd0\x05'
    printf "\\x13\\x05\\x$1\\x00\\x73\\x00\\x00\\x00"
}

# no words
"$wwt" </dev/null >"$room/out" 2>"$room/err"
echo $? >"$room/status"
expect 'no words' 2 '' "$usage"

# a word that isn't text
"$wwt" $'\xff' </dev/null >"$room/out" 2>"$room/err"
echo $? >"$room/status"
expect "a word that isn't text" 2 '' "$usage"

# standard input is closed
"$wwt" flat <&- >"$room/out" 2>"$room/err"
echo $? >"$room/status"
expect 'closed input' 8 '' 'wwt: cannot read -'

# standard input is a folder
"$wwt" flat <"$room" >"$room/out" 2>"$room/err"
echo $? >"$room/status"
expect 'a folder as input' 8 '' 'wwt: cannot read -'

# the output takes nothing
if [ -w /dev/full ]; then
    letter 00 | "$wwt" flat >/dev/full 2>"$room/err"
    echo $? >"$room/status"
    : >"$room/out"
    expect 'a full output' 9 '' 'wwt: write failed'
fi

# an error line that can't be written changes no status
if [ -w /dev/full ]; then
    for words in '' 'run' 'run m n' 'run --budget 0 m' 'run --workers 17 m' 'check' 'load' 'load 10000' 'dis' 'flat m' 'fly'; do
        # (each word for itself)
        "$wwt" $words </dev/null >"$room/out" 2>/dev/full
        echo $? >"$room/status"
        : >"$room/err"
        expect "a full error output, for '$words'" 2 '' ''
    done
    "$wwt" check "$room/no such file" >"$room/out" 2>/dev/full
    echo $? >"$room/status"
    expect 'a full error output, for a missing file' 8 '' ''
    "$wwt" check /dev/null >"$room/out" 2>/dev/full
    echo $? >"$room/status"
    expect 'a full error output, for an empty description' 6 '' ''
fi

# input through a pipe, in three pieces with pauses; an exit by the code 0 and one by another
{ letter 00 | head -c 5; sleep 0.2; letter 00 | tail -c +6 | head -c 7; sleep 0.2; letter 00 | tail -c +13; } |
    "$wwt" flat >"$room/out" 2>"$room/err"
echo $? >"$room/status"
expect 'input in pieces' 0 'outcome finished' ''
letter 40 | "$wwt" flat >"$room/out" 2>"$room/err"
echo $? >"$room/status"
expect 'another exit code' 1 'outcome finished' ''

# more than 4096 bytes: lui and jalr go to the six words at 0x2000, which a single read would cut off
{ printf '\xb7\x22\x00\x00\x67\x80\x02\x00'; head -c 8184 /dev/zero; letter 00; } >"$room/long"
"$wwt" flat <"$room/long" >"$room/out" 2>"$room/err"
echo $? >"$room/status"
expect 'a program past 4096 bytes' 0 'outcome finished' ''
if ! grep -qx 'out 0 1 41' "$room/out"; then
    echo "edge 'a program past 4096 bytes': it didn't print its letter"
    failed=1
fi

# an executable of 16 MiB with 65535 headers, each of which names all of its bytes: 1 TiB, which isn't copied
{
    printf '\x7fELF\x01\x01\x01\x00\x00\x00\x00\x00\x00\x00\x00\x00\x02\x00\xf3\x00\x01\x00\x00\x00'
    printf '\x00\x00\x00\x00\x34\x00\x00\x00\x00\x00\x00\x00\x00\x00\x00\x00'
    printf '\x34\x00\x20\x00\xff\xff\x28\x00\x00\x00\x00\x00'
} >"$room/file"
{
    printf '\x01\x00\x00\x00\x00\x00\x00\x00\x00\x00\x00\x00\x00\x00\x00\x00'
    printf '\x00\x00\x00\x01\x00\x00\x00\x01\x05\x00\x00\x00\x04\x00\x00\x00'
} >"$room/headers"
for ((i = 0; i < 16; i++)); do
    cat "$room/headers" "$room/headers" >"$room/twice"
    mv "$room/twice" "$room/headers"
done
head -c 2097120 "$room/headers" >>"$room/file"
head -c 14680044 /dev/zero >>"$room/file"
timeout 10 "$wwt" dis "$room/file" >"$room/out" 2>"$room/err"
echo $? >"$room/status"
expect 'an executable of 1 TiB' 10 '' 'wwt: out of memory'

exit "$failed"
