#!/bin/sh
# bay run, as a person runs it.
. "$(dirname "$0")/lib.sh"

make_image board.img
cp board.img kept.img
printf 'read FBC0000\n' | lay >maker.stream
lay >erase.stream <<'END'
write FB30002 00
write FF30000 20
write FF30000 D0
idle 9000
END

case_ "a maker register read is answered as the part answers it"
hex 00 00 00 00 00 00 00 00 00 00 00 00 15 15 10 10 12 1F 00 >want
gives 0 bay run board.img maker.stream --answers got
same got want
says out "samples  19 done"

case_ "the report: samples, status bit by bit, spoiled and changed blocks"
gives 0 bay run board.img erase.stream --times 10,1,30 --save after.img
cat >want <<'END'
samples  9,051 done
status   80h
  bit 7  1  controller        ready
  bit 6  0  erase suspend     none suspended
  bit 5  0  erase             no error
  bit 4  0  program           no error
  bit 3  0  voltage           no error
  bit 2  0  program suspend   none suspended
  bit 1  0  block protection  no error
  bit 0  0  reserved
block    0  1  2  3  4  5  6  7  8  9 10 11 12 13 14 15
spoiled  .  .  .  .  .  .  .  .  .  .  .  .  .  .  .  .
changed  .  .  .  C  .  .  .  .  .  .  .  .  .  .  .  .
END
same out want
{ head -c 196608 kept.img; head -c 65536 /dev/zero | tr '\0' '\377'; tail -c 786432 kept.img; } >want
same after.img want
same board.img kept.img

case_ "a reset during an erase: the block is spoiled and the image keeps its length"
{ printf 'write FB30002 00\nwrite FF30000 20\nwrite FF30000 D0\nidle 40\nreset rp 1\n' | lay; } >reset.stream
gives 0 bay run board.img reset.stream --times 10,1,30
says out "spoiled  .  .  .  S  .  .  .  .  .  .  .  .  .  .  .  ."
says out "changed  .  .  .  C  .  .  .  .  .  .  .  .  .  .  .  ."

case_ "each status bit has its words"
printf 'write FF00000 20\nwrite FF00000 00\n' | lay >b0.stream
gives 0 bay run board.img b0.stream
says out "status   B0h"
says out "  bit 5  1  erase             error"
says out "  bit 4  1  program           error"
printf 'voltage 0\nwrite FF00000 40\nwrite FF00000 00\n' | lay >88.stream
gives 0 bay run board.img 88.stream
says out "  bit 3  1  voltage           too low for a program or erase"
printf 'write FF00000 40\nwrite FF00000 00\n' | lay >82.stream
gives 0 bay run board.img 82.stream
says out "  bit 1  1  block protection  a protected block was to be changed"
printf 'write FB00002 00\nwrite FF00000 20\nwrite FF00000 D0\nwrite FF00000 B0\nidle 33\n' | lay >c0.stream
gives 0 bay run board.img c0.stream --times 10,10,1
says out "  bit 6  1  erase suspend     an erase is suspended"
printf 'write FB00002 00\nwrite FF00000 40\nwrite FF00000 00\nwrite FF00000 B0\nidle 33\n' | lay >84.stream
gives 0 bay run board.img 84.stream --times 10,10,1
says out "  bit 2  1  program suspend   a program is suspended"
printf 'write FB00002 00\nwrite FF00000 40\nwrite FF00000 00\n' | lay >00.stream
gives 0 bay run board.img 00.stream
says out "  bit 7  0  controller        busy"

case_ "- is the standard input, and the standard output with the report on the standard error"
gives 0 bay run board.img - <maker.stream
says out "samples  19 done"
gives 0 bay run - maker.stream <board.img
says out "samples  19 done"
gives 0 bay run board.img maker.stream --answers -
hex 00 00 00 00 00 00 00 00 00 00 00 00 15 15 10 10 12 1F 00 >want
same out want
says err "samples  19 done"
gives 0 bay run board.img erase.stream --times 10,1,30 --save -
same out after.img

case_ "an empty stream is done"
: >empty.stream
gives 0 bay run board.img empty.stream --answers none
says out "samples  0 done"
says out "status   80h"
{ [ -e none ] && [ ! -s none ]; } || wrong "the answers are not an empty file"

case_ "the longest stream is done, and one sample more is refusal 5"
printf 'idle 65536\n' | lay >long.stream
gives 0 bay run board.img long.stream
says out "samples  65,536 done"
printf 'idle 65537\n' | lay >longer.stream
gives 5 bay run board.img longer.stream
explains
says err "found     more than 131,072 bytes"

case_ "a missing image or stream"
gives 66 bay run missing.img maker.stream --save new.img
explains
says err "missing.img"
absent new.img
gives 66 bay run board.img missing.stream --save new.img
explains
absent new.img
gives 66 bay run . maker.stream
explains

case_ "an image one byte short, one byte long, or empty is refusal 2, and nothing is written"
head -c 1048575 board.img >short.img
{ cat board.img; printf Z; } >tall.img
echo old >save.img
for image in short.img tall.img empty.stream; do
    gives 2 bay run $image maker.stream --save save.img --answers answers
    explains
    says err "expected  1,048,576 bytes"
    absent answers
    [ "$(cat save.img)" = old ] || wrong "save.img was written over"
done
gives 2 bay run short.img maker.stream
says err "found     1,048,575 bytes"

case_ "an odd stream is refusal 5"
head -c 37 maker.stream >odd.stream
gives 5 bay run board.img odd.stream --save save.img
explains
says err "found     37 bytes"
[ "$(cat save.img)" = old ] || wrong "save.img was written over"

case_ "a sample of voltage class 3, even the last, is refusal 7"
{ cat maker.stream; printf 'raw 07FF\n' | lay; } >class3.stream
gives 7 bay run board.img class3.stream --save save.img
explains
says err "class 3 in sample 19"
[ "$(cat save.img)" = old ] || wrong "save.img was written over"

case_ "straps and times: the library's refusals, and what is no number"
gives 3 bay run board.img maker.stream --straps 16
explains
says err "found     16"
gives 3 bay run board.img maker.stream --straps 99999999999999999999
gives 64 bay run board.img maker.stream --straps three
explains
gives 64 bay run board.img maker.stream --straps -1
gives 4 bay run board.img maker.stream --times 0,3906,30
explains
gives 4 bay run board.img maker.stream --times 201,3906,30
gives 4 bay run board.img maker.stream --times 10,39063,30
gives 4 bay run board.img maker.stream --times 10,3906,31
gives 64 bay run board.img maker.stream --times 10,3906
explains
gives 64 bay run board.img maker.stream --times "10, 3906, 30"
gives 0 bay run board.img maker.stream --straps 15 --times 200,39062,30
gives 0 bay run board.img maker.stream --straps=3 --answers got
hex 00 00 00 00 00 00 00 00 00 00 00 00 00 00 00 00 00 00 00 >want
same got want

case_ "the lowest refusal is given"
gives 2 bay run short.img odd.stream --straps 16 --times 0,0,0
gives 3 bay run board.img odd.stream --straps 16 --times 0,0,0
gives 4 bay run board.img odd.stream --times 0,0,0

case_ "straps and times from a sheet, and not from two places"
hex 01 01 00 00 02 06 00 0A 00 01 00 1E 00 >quick.sheet
gives 0 bay run board.img erase.stream --sheet quick.sheet --save again.img
same again.img after.img
gives 64 bay run board.img erase.stream --sheet quick.sheet --straps 0
explains
head -c 12 quick.sheet >cut.sheet
gives 8 bay run board.img erase.stream --sheet cut.sheet
explains
gives 66 bay run board.img erase.stream --sheet missing.sheet
explains

case_ "the LPC part answers its own frames: array, inputs, status and signature, and has no maker register"
lay >sister.stream <<'END'
part lpc
inputs 15
read FFF00000
read FFBC0100
read FFBC0000
read FFBC0001
write FFF00000 70
read FFF00000
write FFF00000 90
read FFF00000
read FFF00001
END
gives 0 bay run board.img sister.stream --part lpc --answers got
says out "samples  167 done"
# bytes ANSWERS: what was read, from the answers of a stream in which each read is driven on clocks 13 to 18
bytes() {
    od -An -v -tx1 -w1 "$1" | tr -d ' ' | awk '$1 != "00" { run = run substr($1, 2); next }
        { if (length(run) == 6) print substr(run, 5, 1) substr(run, 4, 1); run = "" }' | tr '\n' ' '
}
said=$(bytes got)
[ "$said" = "5a 15 00 00 80 20 2f " ] || wrong "read: $said"
head -c 19 got >first
hex 00 00 00 00 00 00 00 00 00 00 00 00 15 15 10 1A 15 1F 00 >want
same first want

case_ "neither part answers the other's frames, and fwh is what bay takes where no part is given"
gives 0 bay run board.img sister.stream --answers got
[ "$(tr -d '\0' <got | wc -c)" -eq 0 ] || wrong "the FWH part drives"
gives 0 bay run board.img maker.stream --part lpc --answers got
[ "$(tr -d '\0' <got | wc -c)" -eq 0 ] || wrong "the LPC part drives"
hex 00 00 00 00 00 00 00 00 00 00 00 00 15 15 10 10 12 1F 00 >want
gives 0 bay run board.img maker.stream --part=fwh --answers got
same got want

case_ "on LPC the straps choose a megabyte of addresses, and the same erase leaves the same image"
i=0
for window in FFF:FFB FFE:FFA FFD:FF9 FFC:FF8; do
    printf 'part lpc\nwrite %s30002 00\nwrite %s30000 20\nwrite %s30000 D0\nidle 9000\n' \
        "${window#*:}" "${window%:*}" "${window%:*}" | lay >window.stream
    for straps in 0 1 2 3; do
        gives 0 bay run board.img window.stream --part lpc --straps $straps --times 10,1,30 --save again.img
        if [ $straps -eq $i ]; then
            same again.img after.img
        else
            same again.img kept.img
        fi
    done
    i=$((i + 1))
done

case_ "the part decides which straps there are; what is no part; a sheet is one of fwh's"
gives 3 bay run board.img sister.stream --part lpc --straps 4 --save save.img
explains
says err "expected  straps 0 to 3, as the part lpc has them"
says err "found     4"
gives 3 bay run board.img sister.stream --part lpc --straps 15
gives 3 bay run board.img sister.stream --part fwh --straps 16
says err "expected  straps 0 to 15, as the part fwh has them"
gives 0 bay run board.img sister.stream --part fwh --straps 4
gives 2 bay run short.img odd.stream --part lpc --straps 4
gives 3 bay run board.img odd.stream --part lpc --straps 4 --times 0,0,0
gives 4 bay run board.img odd.stream --part lpc --straps 3 --times 0,0,0
gives 5 bay run board.img odd.stream --part lpc --straps 3
gives 7 bay run board.img class3.stream --part lpc --straps 3
gives 64 bay run board.img sister.stream --part lpc --straps three
explains
says err "expected  a whole number, 0 to 3"
for word in spi LPC lpcx 1 ''; do
    gives 64 bay run board.img sister.stream --part "$word" --save save.img
    explains
    says err "expected  fwh for the M50FW080, lpc for the M50LPW080"
done
gives 64 bay run board.img sister.stream --part lpc --part lpc
explains
gives 64 bay run board.img sister.stream --part lpc --sheet quick.sheet --save save.img
explains
says err "--sheet does not go with --part lpc"
gives 0 bay run board.img erase.stream --part fwh --sheet quick.sheet --save again.img
same again.img after.img
[ "$(cat save.img)" = old ] || wrong "save.img was written over"

case_ "a full disk: the old file stays, nothing is left over, and no second output is kept"
echo old >answers
gives 74 full 200 run board.img maker.stream --answers answers --save save.img
explains
[ "$(cat save.img)" = old ] || wrong "save.img was written over"
[ "$(cat answers)" = old ] || wrong "answers was written over"
gives 74 full 200 run board.img maker.stream --save fresh.img
absent fresh.img
tidy

case_ "a standard output that is full: an error, and no file is changed"
bay run board.img maker.stream --save save.img >/dev/full 2>err
[ $? -eq 74 ] || wrong "the status is not 74"
: >out
explains
[ "$(cat save.img)" = old ] || wrong "save.img was written over"
tidy

case_ "a standard stream that is closed is an error like another, and no file is taken for it"
bay run board.img maker.stream --save save.img >&- 2>err
[ $? -eq 74 ] || wrong "a closed standard output: the status is not 74"
bay run board.img - <&- >out 2>err
[ $? -eq 66 ] || wrong "a closed standard input: the status is not 66"
bay run short.img maker.stream --save save.img 2>&-
[ $? -eq 2 ] || wrong "a closed standard error: the status is not 2"
[ "$(cat save.img)" = old ] || wrong "save.img was written over"
tidy

case_ "a target that is a folder, no ordinary file, or in no folder"
mkdir folder
for target in folder /dev/null missing/new.img ''; do
    gives 73 bay run board.img maker.stream --save "$target"
    explains
done
[ -c /dev/null ] || wrong "/dev/null is gone"

case_ "a file is replaced whole: its mode stays, a link to it stays a link, and it may be the image itself"
cp board.img real.img
chmod 640 real.img
ln -s real.img link.img
gives 0 bay run real.img erase.stream --times 10,1,30 --save link.img
same real.img after.img
[ -L link.img ] || wrong "the link is no link any more"
[ "$(stat -c %a real.img)" = 640 ] || wrong "the mode has changed"
tidy

case_ "interrupted while it waits for its stream: no file"
mkfifo pipe
"$BAY_BUILD/bay" run board.img pipe --save never.img >out 2>err &
running=$!
exec 9>pipe
kill -TERM $running
ended $running
[ "$got" -eq 143 ] || wrong "status $got: it did not end by the signal"
exec 9>&-
absent never.img
tidy

case_ "interrupted at any moment: the file is the old one or the new one"
for try in 0 1 2 3 4 5 6 7 8 9 10 11 12 13 14 15 16 17 18 19; do
    cp kept.img target.img
    "$BAY_BUILD/bay" run board.img erase.stream --times 10,1,30 --save target.img >out 2>err &
    running=$!
    sleep "0.0$((try * 7 % 20 + 10))"
    kill -TERM $running 2>/dev/null
    ended $running
    cmp -s target.img kept.img || cmp -s target.img after.img || wrong "neither old nor new after try $try"
    tidy
done

case_ "a command line that is not one"
gives 64 bay run
explains
gives 64 bay run board.img
explains
gives 64 bay run board.img maker.stream third
explains
gives 64 bay run board.img maker.stream --what
explains
gives 64 bay run board.img maker.stream --save
explains
gives 64 bay run board.img maker.stream --save a --save b
explains
gives 64 bay run - -
explains
gives 64 bay run board.img maker.stream --save - --answers -
explains
gives 64 bay run board.img maker.stream --save x --answers x
explains
gives 64 bay
explains
gives 64 bay runs
explains

case_ "help for bay and for each command, with a line to try"
for words in "" run trace demo rack serve sheet; do
    gives 0 bay $words --help
    says out "Example:  bay "
    [ -s err ] && wrong "help on the standard error"
done
gives 0 bay help
gives 0 bay help run
gives 0 bay run board.img --help

finish
