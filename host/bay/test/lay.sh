#!/bin/sh
# lay, and with it the language that it shares with the cases.
. "$(dirname "$0")/lib.sh"

# lays SCRIPT BYTES...: the script lays these bytes, in hexadecimal, and no word is said.
lays() {
    printf '%b' "$1" >script
    shift
    gives 0 lay <script
    hex "$@" >want
    same out want
    [ -s err ] && wrong "laid, and yet something on the standard error: $(cat err)"
}

# lays_same SCRIPT OTHER: both scripts lay the same, which is something.
lays_same() {
    printf '%b' "$1" >script
    gives 0 lay <script
    mv out want
    printf '%b' "$2" >script
    gives 0 lay <script
    same out want
    [ -s out ] || wrong "nothing is laid: $1"
}

# lays_many SAMPLES SCRIPT: the script lays so many samples.
lays_many() {
    printf '%b' "$2" >script
    gives 0 lay <script
    [ "$(wc -c <out)" -eq $((2 * $1)) ] || wrong "$(wc -c <out) bytes and not $1 samples: $2"
}

# ends BYTES...: what was laid last ends with these bytes.
ends() {
    hex "$@" >want
    tail -c $# out >end
    same end want
}

# refuses SCRIPT LINE WORDS: the script is not understood, for this reason at this line, and nothing is laid.
refuses() {
    printf '%b' "$1" >script
    gives 64 lay <script
    says err "lay: standard input:$2: $3"
    [ -s out ] && wrong "not understood, and yet something is laid: $1"
    [ "$(wc -l <err)" -eq 1 ] || wrong "not one line on the standard error: $1"
}

case_ "nothing, and what is no more than comments and blanks, lays an empty stream"
lays ''
lays '# a rule\n\n  \t\r\n   # idle 3\n'

case_ "idle samples, with and without a comment behind them, and with a last line that has no end"
lays 'idle 2 # and no more\nidle 0\n\tidle  1' FF 03 FF 03 FF 03

case_ "a read and a write frame, clock by clock"
lays 'read FBC0001\n' ED 03 F0 03 FF 03 FB 03 FC 03 F0 03 F0 03 F0 03 F1 03 F0 03 \
    FF 03 FF 03 FF 03 FF 03 FF 03 FF 03 FF 03 FF 03 FF 03
lays 'write FF12345 A7\n' EE 03 F0 03 FF 03 FF 03 F1 03 F2 03 F3 03 F4 03 F5 03 F0 03 \
    F7 03 FA 03 FF 03 FF 03 FF 03 FF 03 FF 03

case_ "the same for the LPC part, whose start is 0, which has a cycle type for the straps and 32 bits of address, and no size"
lays 'part lpc\nread FFBC0100\n' E0 03 F4 03 FF 03 FF 03 FB 03 FC 03 F0 03 F1 03 F0 03 F0 03 \
    FF 03 FF 03 FF 03 FF 03 FF 03 FF 03 FF 03 FF 03 FF 03
lays 'part lpc\nwrite 89A12345 A7\n' E0 03 F6 03 F8 03 F9 03 FA 03 F1 03 F2 03 F3 03 F4 03 F5 03 \
    F7 03 FA 03 FF 03 FF 03 FF 03 FF 03 FF 03
lays 'part lpc\nread 0 type 5 cut 3\n' E0 03 F5 03
lays 'part lpc\nwrite 0 0 type F start D cut 3\n' ED 03 FF 03
lays_same 'part lpc\nread FFF00000\n' 'straps 3\npart lpc\nread FFF00000\n'
lays_same 'read FBC0001\n' 'part fwh\nread FBC0001\n'

case_ "what a read is to find, and that it is to be silent, lays nothing else"
lays_same 'read FBC0001\nwrite FF00000 FF\n' 'read fbc0001 = 2d\nwrite FF00000 FF silent\n'

case_ "straps are what frames select, strap is what one selects"
lays 'straps 9\nread 0 cut 3\n' ED 03 F9 03
lays 'straps 15\nwrite 0 0 strap 4 cut 3\n' EE 03 F4 03

case_ "start, size and turnaround may be wrong ones"
lays 'write 0 12 start 7 size 3 turn A cut 15\n' \
    E7 03 F0 03 F0 03 F0 03 F0 03 F0 03 F0 03 F0 03 F0 03 F3 03 F2 03 F1 03 FA 03 FA 03
lays_many 19 'read 0 turn 5\n'
ends F5 03 F5 03 F5 03 F5 03 F5 03 F5 03 F5 03 F5 03 F5 03

case_ "break: the frame line is low on that clock, and the frame ends there"
lays 'write FF00000 FF break 4\nidle 1\n' EE 03 F0 03 FF 03 EF 03 FF 03
lays 'read FF00000 nibble D break 2\n' ED 03 ED 03
lays_many 17 'write FF00000 FF break 17\n'
ends FF 03 EF 03

case_ "cut and on: the frame goes on where it was left, with the pins of then"
lays_same 'write FF00000 FF\n' 'write FF00000 FF cut 5\non 1\non 3\non\n'
lays 'read FBC0000 cut 3\nidle 1\npin wp low\non 2\nidle 1\n' ED 03 F0 03 FF 03 FF 02 FB 02 FF 02
lays 'write FF00000 FF cut 3 break 5\non\n' EE 03 F0 03 FF 03 FF 03 EF 03
lays 'read FBC0000 cut 1\non 1\n' ED 03

case_ "resets"
lays 'reset rp 1\nreset init 1\nreset both 2\n' DF 03 BF 03 9F 03 9F 03

case_ "pins, voltage, inputs and lines hold from the next sample on"
lays 'pin tbl low\nidle 1\npin wp low\nidle 1\npin tbl high\npin wp high\nidle 1\n' 7F 03 7F 02 FF 03
lays 'voltage 0\nidle 1\nvoltage 2\nidle 1\nvoltage 3\nidle 1\nvoltage 1\nidle 1\n' FF 01 FF 05 FF 07 FF 03
lays 'inputs 1F\nidle 1\ninputs 15\nidle 1\ninputs 0\nidle 1\n' FF FB FF AB FF 03
lays 'lines 4\nidle 1\nreset rp 1\nread 0 cut 2\nlines F\nidle 1\n' F4 03 D4 03 ED 03 FF 03

case_ "raw samples are laid as they are"
lays 'pin wp low\nraw 0 FFFF 03ed\n' 00 00 FF FF ED 03

case_ "streams longer than the library takes, and a million idle samples"
lays_many 65537 'idle 65537\n'
lays_many 1000001 'idle 1000000\nidle 1\n'
refuses 'idle 1000001\n' 1 "expected a decimal number of at most 1000000, found 1000001"

case_ "lines that are not understood, at the line where they stand"
refuses 'idle 1\n# no line\nwait 3\n' 3 "expected a line of traffic, found wait"
refuses 'Idle 1\n' 1 "expected a line of traffic, found Idle"
refuses '\n\nidle\n' 3 "expected a decimal number of at most 1000000, found the end of the line"
refuses 'idle 1 2\n' 1 "expected the end of the line, found 2"
for count in -1 +1 0x10 1.5 A; do
    refuses "idle $count\n" 1 "expected a decimal number of at most 1000000, found $count"
done
refuses 'read\n' 1 "expected a hexadecimal number of at most FFFFFFF, found the end of the line"
refuses 'read 10000000\n' 1 "expected a hexadecimal number of at most FFFFFFF, found 10000000"
refuses 'write FF00000\n' 1 "expected a hexadecimal number of at most FF, found the end of the line"
refuses 'write FF00000 100\n' 1 "expected a hexadecimal number of at most FF, found 100"
refuses 'write FF00000 FF = FF\n' 1 "expected an option of a frame, found ="
refuses 'read FF00000 FF\n' 1 "expected an option of a frame, found FF"
refuses 'read FF00000 size\n' 1 "expected a hexadecimal number of at most F, found the end of the line"
refuses 'read FF00000 break 0\n' 1 "expected a clock, which count from 1, found 0"
refuses 'read FF00000 break 20\n' 1 "expected a decimal number of at most 19, found 20"
refuses 'write FF00000 FF cut 18\n' 1 "expected a decimal number of at most 17, found 18"
refuses 'read FF00000\non\n' 2 "expected a frame that was cut, found none to go on with"
refuses 'pin rp low\n' 1 "expected tbl or wp, found rp"
refuses 'pin wp down\n' 1 "expected low or high, found down"
refuses 'voltage 4\n' 1 "expected a decimal number of at most 3, found 4"
refuses 'inputs 20\n' 1 "expected a hexadecimal number of at most 1F, found 20"
refuses 'lines 10\n' 1 "expected a hexadecimal number of at most F, found 10"
refuses 'reset wp 1\n' 1 "expected rp, init or both, found wp"
refuses 'raw\n' 1 "expected a hexadecimal number of at most FFFF, found the end of the line"
refuses 'raw 03FF 10000\n' 1 "expected a hexadecimal number of at most FFFF, found 10000"
refuses 'idle 1\nstraps 1\n' 2 "expected straps before the first sample, found them after it"
refuses 'idle 1\npart lpc\n' 2 "expected a part before the first sample"
refuses 'part\n' 1 "expected fwh or lpc, found the end of the line"
refuses 'part spi\n' 1 "expected fwh or lpc, found spi"
refuses 'part lpc fwh\n' 1 "expected the end of the line, found fwh"
refuses 'part lpc\nread 100000000\n' 2 "expected a hexadecimal number of at most FFFFFFFF, found 100000000"
refuses 'part lpc\nread 0 strap 1\n' 2 "expected an option of a frame, found strap"
refuses 'part lpc\nread 0 size 1\n' 2 "expected an option of a frame, found size"
refuses 'read 0 type 4\n' 1 "expected an option of a frame, found type"
refuses 'straps 16\nread 0\n' 2 "expected \`strap\` where no nibble selects the straps, found none"

case_ "a line that is too long, that has too many words, or that is no text"
blanks=$(printf '%600s' '')
refuses "idle 1\nidle$blanks 1\n" 2 "expected at most 511 characters in a line, found 606"
refuses "idle 1\nraw$(printf '%64s' '' | sed 's/ / 0/g')\n" 2 "expected at most 64 words in a line, found more"
refuses 'idle 1\nidle 1\0\nidle 1\n' 2 "expected text, found a zero byte"
refuses 'idle 1\nidle 1\0' 2 "expected text, found a zero byte"
lays_many 63 "raw$(printf '%63s' '' | sed 's/ / 0/g')\n"

case_ "what is no traffic is refused"
for line in 'expect status 80' 'settle 10 = 0 0' 'set times 1 1 1 = 0' 'answers = 00' 'times 1 1 1' 'image fill 5A' \
    'view 0 = front' 'refuse 9 settle' 'sheet read 01 = 0 1 1 1'; do
    refuses "idle 1\n$line\n" 2 "expected a line of traffic, found ${line%% *}"
done

case_ "the traffic of a case is laid as its lines say"
traffic() { grep -vE '^(expect|image|times)' "$root/host/cases/$1"; }
lays_same "$(traffic frame-low-twice.case)" 'raw 03ED 03ED\nread FBC0000\nraw 03EE 03ED\nwrite FB10002 04
read FB10002\nraw 03EE 03EF\nidle 20\nread FB10002'
lays_same "$(traffic example-03.case)" 'voltage 0\nwrite FFF0000 40\nwrite FFF1234 0F\nidle 400'

case_ "the program that runs cases: one test for each file, what was expected and found at its line"
printf '# A rule that holds.\nread FBC0000 = 20\n' >good.case
printf '# A rule that does not.\nidle 3\nread FBC0000 = 21\n' >bad.case
printf '# A rule in words that are not understood.\nidle 1\nwait 3\n' >odd.case
printf '# Nothing is stated.\nidle 1\n' >mute.case
gives 0 "$BAY_BUILD/case" good.case good.case
[ "$(tail -n 1 out)" = "case: 2 passed, 0 failed" ] || wrong "the last line: $(tail -n 1 out)"
gives 1 "$BAY_BUILD/case" bad.case good.case odd.case mute.case missing.case
[ "$(tail -n 1 out)" = "case: 1 passed, 4 failed" ] || wrong "the last line: $(tail -n 1 out)"
says out "bad.case:3: answer to sample 18 (03FFh): expected 11h, found 10h"
says out "odd.case:3: not understood: expected a line of a scenario, found wait"
says out "mute.case:2: expected something that is to be found"
for file in bad odd mute missing; do
    says out "FAILED $file.case"
done
printf '# A rule of the LPC part that holds.\npart lpc\nread FFB30002 = 01\nread FFA30002 silent\n' >lpc.case
gives 0 "$BAY_BUILD/case" lpc.case
[ "$(tail -n 1 out)" = "case: 1 passed, 0 failed" ] || wrong "the last line: $(tail -n 1 out)"
gives 1 "$BAY_BUILD/case"
[ "$(tail -n 1 out)" = "case: 0 passed, 0 failed" ] || wrong "the last line: $(tail -n 1 out)"

case_ "a stream that cannot be written, and a script that cannot be read"
for script in 'idle 1' 'idle 100000'; do
    echo "$script" >script
    got=0
    lay <script >/dev/full 2>err || got=$?
    [ "$got" -eq 74 ] || wrong "status $got and not 74: $script"
    says err "found that it cannot be written"
done
gives 66 lay <.

finish
