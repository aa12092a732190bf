#!/bin/sh
# bay demo: its output is the stored one.
. "$(dirname "$0")/lib.sh"

case_ "the night that cost two boards"
gives 0 bay demo
diff "$root/host/bay/test/demo.expected" out >difference || wrong "$(cat difference)"
[ -s err ] && wrong "something on the standard error"

case_ "it leaves no files"
mkdir empty
(cd empty && bay demo >/dev/null)
[ -z "$(ls -A empty)" ] || wrong "files: $(ls -A empty)"

case_ "a word too many, and a standard output that is full"
gives 64 bay demo now
explains
bay demo >/dev/full 2>err
[ $? -eq 74 ] || wrong "the status is not 74"
says err "  do        "

finish
