#!/bin/sh
# bay sheet, as a person runs it.
. "$(dirname "$0")/lib.sh"

hex 01 01 00 00 02 06 00 0A 00 42 0F 1E 00 >usual.sheet

case_ "the sheet of straps 0 and times 10, 3906, 30"
gives 0 bay sheet write new.sheet
same new.sheet usual.sheet
[ -s out ] && wrong "words on the standard output"
gives 0 bay sheet write - --straps 0 --times 10,3906,30
same out usual.sheet

case_ "a sheet in words"
gives 0 bay sheet read usual.sheet
cat >want <<'END'
straps   0
program  10 microseconds
slice    3906 microseconds
pause    30 microseconds
END
same out want
gives 0 bay sheet read - <usual.sheet
same out want

case_ "bytes to words to bytes, at both ends of the ranges"
for values in "0 1,1,1" "15 200,39062,30" "7 10,256,5"; do
    gives 0 bay sheet write one.sheet --straps "${values% *}" --times "${values#* }"
    gives 0 bay sheet read one.sheet
    cp out words
    gives 0 bay sheet write two.sheet --words words
    same one.sheet two.sheet
    gives 0 bay sheet write - --words - <words
    same out one.sheet
done

case_ "what is no sheet is refusal 8, before straps and times are looked at"
: >empty
head -c 12 usual.sheet >short
{ cat usual.sheet; printf x; } >long
hex 02 01 00 00 02 06 00 0A 00 42 0F 1E 00 >tag
hex 02 01 00 FF 02 06 00 00 00 42 0F 1E 00 >all
for sheet in empty short long tag all /dev/zero; do
    gives 8 bay sheet read $sheet
    explains
done

case_ "a sheet with straps or a time out of range is refusal 3 or 4"
hex 01 01 00 10 02 06 00 00 00 42 0F 1E 00 >straps
gives 3 bay sheet read straps
explains
says err "found     13 bytes: 01 01 00 10 02 06 00 00 00 42 0F 1E 00"
hex 01 01 00 00 02 06 00 00 00 42 0F 1E 00 >zero
gives 4 bay sheet read zero
explains
echo old >kept
gives 3 bay sheet write kept --straps 16
explains
gives 3 bay sheet write kept --straps 256
gives 3 bay sheet write kept --straps 65536
gives 4 bay sheet write kept --times 0,1,1
explains
gives 4 bay sheet write kept --times 1,65537,1
[ "$(cat kept)" = old ] || wrong "kept was written over"

case_ "words that do not say what a sheet holds"
for words in "straps 0" "straps 0,program 10,slice 3906,pause 30,straps 1" "straps 0,program ten,slice 3906,pause 30" \
    "straps 0 microseconds,program 10,slice 3906,pause 30" "straps 0,program 10 seconds,slice 3906,pause 30" \
    "straps 0,program 10,slice 3906,pause" "straps 0,program 10,slice 3906,rest 30"; do
    echo "$words" | tr , '\n' >words
    gives 65 bay sheet write kept --words words
    explains
done
[ "$(cat kept)" = old ] || wrong "kept was written over"
echo "straps 3,program 10,slice 3906,pause 30" | tr , '\n' >words
gives 0 bay sheet write - --words words
hex 01 01 00 03 02 06 00 0A 00 42 0F 1E 00 >want
same out want

case_ "a missing file, a place that cannot be written, a full disk"
gives 66 bay sheet read missing
explains
gives 66 bay sheet write kept --words missing
explains
gives 73 bay sheet write missing/new.sheet
explains
(ulimit -f 0 && bay sheet write kept 2>&1 && echo "status 0" || echo "status $?") | cat >said
[ "$(tail -n 1 said)" = "status 74" ] || wrong "a full disk: $(cat said)"
[ "$(cat kept)" = old ] || wrong "kept was written over"
tidy

case_ "words that go on for long, or are no text, are turned away and not cut"
{ printf 'straps 0\nprogram 10\nslice 3906\npause 3'; yes '' | head -c 4060 | tr '\n' ' '; printf '0\n'; } >long
{ printf 'straps 0\nprogram 10\nslice 3906\npause 30\n'; printf '%5000s\n' ''; } >trailing
printf 'straps 0\nprogram 10\nslice 3906\npause 30\n\0straps 7 and anything else\n' >zero
for words in long trailing zero "$root/host/fuzz/seeds/words/cut-number" "$root/host/fuzz/seeds/words/zero-byte"; do
    gives 65 bay sheet write never.sheet --words "$words"
    explains
    absent never.sheet
done

case_ "a command line that is not one"
gives 64 bay sheet
explains
gives 64 bay sheet erase usual.sheet
explains
gives 64 bay sheet read
explains
gives 64 bay sheet read usual.sheet --straps 1
explains
gives 64 bay sheet write kept --words words --straps 1
explains
# a sheet says no part
gives 64 bay sheet write lpc.sheet --part lpc
explains
gives 64 bay sheet read usual.sheet --part lpc
explains
absent lpc.sheet

finish
