#!/bin/sh
# demo.sh REPLAY CHECK_DUMP FOLDER: replays the sample user program under three settings of the control registers, by the program
# REPLAY, with the traces put together in FOLDER, and has CHECK_DUMP hold a dump of the first history to the program's image.
set -eu
replay=$1
check_dump=$2
folder=$3
traces=$(dirname "$0")/traces

# show SETUP ROWS TITLE: the first ROWS rows of the sample behind a setup
show() {
    rows=$folder/$1.rows
    { cat "$traces/$1.setup"; head -c $((32 * $2)) "$traces/user.rows"; } >"$rows"
    printf '\n== %s\n' "$3"
    "$replay" "$rows"
}

# 1,390 rows end soon after a page fault in the user program
show history 1390 'U is on, M and S are off: the history of the user program, and no address of the others'
show external 1390 'STE and MTE as well: the traps out of the user program, each with target 0x0'
show call-stack 1390 'RASEMU: the open calls of the user program at the end'

# check IMAGE TITLE: the dump of the first history against an image
check() {
    printf '\n== %s\n' "$2"
    "$check_dump" "$1" 0x80400000 "$folder/history.dump"
}

"$replay" --dump "$folder/history.rows" >"$folder/history.dump"
check "$traces/user.image" 'a dump of the first history against the image of the user program'
# the program as another build might have it, four bytes further on
{ printf '\023\000\000\000'; cat "$traces/user.image"; } >"$folder/other.image"
check "$folder/other.image" 'the same against another build of it: a patcher must not go by this dump'
