#!/bin/sh
# bay trace, as a person runs it, and the waveform as sigrok reads it.
. "$(dirname "$0")/lib.sh"

make_image board.img
cp board.img kept.img
lay >night.stream <<'END'
write FB30002 00
write FF30000 20
write FF30000 D0
idle 100
pin wp low
idle 8400
read FF30000
write FF50000 20
write FF50000 D0 break 14   # a write that has acted by then
write FF00000 FF break 12   # and one that has not
write FF00000 FF strap 3
read FFC0000 size 2
write FF00000 FF
read FF2FFFF
read FBC0000
read FBC0001
inputs 15
read FBC0100
read FB30002
read FB30003
raw 03E7            # the frame line low with a nibble that starts nothing
voltage 2
pin tbl low
idle 1
read FBC0000
END

# as_sigrok_sees STREAM OPTIONS...: the waveform of a run, sampled where clk rises, against the stream and the answers. A line
# of `seen` has the sample's lower byte, the higher one as far as the inputs, and the answer.
as_sigrok_sees() {
    stream=$1
    shift
    gives 0 bay trace board.img "$stream" "$@" --vcd small.vcd
    gives 0 bay run board.img "$stream" "$@" --answers small.answers
    gives 0 sigrok-cli -I vcd -i small.vcd -O csv
    [ -s err ] && wrong "sigrok complains: $(cat err)"
    # columns: 1 clk, 2 frame, 3-6 host, 7-10 device, 11 drives, 12 RP, 13 INIT, 14 TBL, 15 WP, 16-17 voltage
    awk -F, '/^[01],/ {
        if ($1 == 1 && last == 0) {
            print $3 + 2 * $4 + 4 * $5 + 8 * $6 + 16 * $2 + 32 * $12 + 64 * $13 + 128 * $14, $15 + 2 * $16 + 4 * $17,
                $7 + 2 * $8 + 4 * $9 + 8 * $10 + 16 * $11
        }
        last = $1
    }' out >seen
    od -An -v -tu1 -w2 "$stream" | awk '{ print $1, $2 % 8 }' >samples
    od -An -v -tu1 -w1 small.answers | awk '{ print $1 }' | paste -d' ' samples - >right
    same seen right
}

case_ "every frame in words, and the pins as they change"
gives 0 bay trace board.img night.stream --times 10,1,30
cat >want <<'END'
clock      0  pins   RP high, INIT high, TBL high, WP high, voltage normal, inputs 00h
clock      0  write  lock of block 3 (FB30002h)    00h  answered; status stays 80h, ready
clock     17  write  array 30000h (block 3)        20h  answered; status stays 80h, ready
clock     34  write  array 30000h (block 3)        D0h  answered; status 80h to 00h, busy
clock    151  pins   WP low
clock   8493  status 00h to 80h, ready
clock   8551  read   array 30000h (block 3)        80h  answered
clock   8570  write  array 50000h (block 5)        20h  answered; status stays 80h, ready
clock   8587  write  array 50000h (block 5)        D0h  aborted on clock 14; status 80h to 82h, ready, protected block
clock   8601  write  array 00000h (block 0)        -    aborted on clock 12
clock   8613  write  array 00000h (block 0)        FFh  not answered (device select 3, size 0); status stays 82h, ready, protected block
clock   8630  read   array C0000h (block 12)       -    not answered (device select 0, size 2)
clock   8649  write  array 00000h (block 0)        FFh  answered; status stays 82h, ready, protected block
clock   8666  read   array 2FFFFh (block 2)        5Ah  answered
clock   8685  read   maker (FBC0000h)              20h  answered
clock   8704  read   device code (FBC0001h)        2Dh  answered
clock   8723  pins   inputs 15h
clock   8723  read   inputs (FBC0100h)             15h  answered
clock   8742  read   lock of block 3 (FB30002h)    00h  answered
clock   8761  read   register FB30003h             00h  answered
clock   8780  pins   WP high, inputs 00h
clock   8780  start  7h begins no frame
clock   8781  pins   TBL low, WP low, voltage twelve volts, inputs 15h
clock   8782  read   maker (FBC0000h)              20h  answered
end of the stream after 8,801 clocks; status 82h, ready, protected block; spoiled blocks: none
END
same out want
same board.img kept.img

case_ "a frame broken off on each of its clocks says on which"
for clock in 2 3 4 5 6 7 8 9 10 11 12 13 14 15 16 17 18 19; do
    printf 'read FF30000 break %d\n' $clock | lay >cut.stream
    gives 0 bay trace board.img cut.stream
    says out "aborted on clock $clock"
done
printf 'read FF30000\nraw 03EF\n' | lay >cut.stream
gives 0 bay trace board.img cut.stream
says out "read   array 30000h (block 3)        5Ah  answered"

case_ "a reset that drops a frame and spoils a block, and a stream that ends within a frame"
{ printf 'write FB30002 00\nwrite FF30000 20\nwrite FF30000 D0\nidle 40\n' | lay
  printf 'read FF30000\n' | lay | head -c 12
  printf 'reset init 1\nidle 1\n' | lay
  printf 'read FF30000\n' | lay | head -c 12; } >reset.stream
gives 0 bay trace board.img reset.stream
says out "clock     91  read   -                             -    reset on clock 7"
says out "clock     97  pins   INIT low"
says out "clock     97  status 00h to 80h, ready"
says out "clock     97  spoiled blocks: 3"
says out "clock     98  pins   INIT high"
says out "clock     99  read   -                             -    cut off by the end of the stream"
says out "spoiled blocks: 3"

case_ "the LPC part: its cycle types and addresses, its registers by their names, and frames that are not its own"
lay >sister.stream <<'END'
part lpc
write FFB30002 00
write FFF30000 20
write FFF30000 D0
idle 100
pin wp low
idle 8400
read FFF30000 type 5        # the lowest bit of a cycle type is free
write FFF50000 20 type 7
write FFF50000 D0 break 14  # a write that has acted by then
write FFF00000 FF break 12  # and one that has not
write FFE00000 FF           # the other three
read FFD30000
read FF8C0100
read 7FF30000               # bits 23 to 31
read FF7F0000
read FFF30000 type 0        # a cycle of another kind, which is over there
write FFF00000 FF type 8
read FFF30000 break 2       # no cycle type yet
raw 02ED                    # a start of the FWH part begins nothing
write FFF00000 FF
read FFF2FFFF
read FFCC0000
read FFBC0000
read FFBC0001
inputs 15
read FFBC0100
read FFB30002
read FFB30003
read FFBF0002
END
gives 0 bay trace board.img sister.stream --part lpc --times 10,1,30
cat >told <<'END'
clock      0  pins   RP high, INIT high, TBL high, WP high, voltage normal, inputs 00h
clock      0  write  lock of block 3 (FFB30002h)   00h  answered; status stays 80h, ready
clock     17  write  array 30000h (block 3)        20h  answered; status stays 80h, ready
clock     34  write  array 30000h (block 3)        D0h  answered; status 80h to 00h, busy
clock    151  pins   WP low
clock   8493  status 00h to 80h, ready
clock   8551  read   array 30000h (block 3)        80h  answered
clock   8570  write  array 50000h (block 5)        20h  answered; status stays 80h, ready
clock   8587  write  array 50000h (block 5)        D0h  aborted on clock 14; status 80h to 82h, ready, protected block
clock   8601  write  array 00000h (block 0)        -    aborted on clock 12
clock   8613  write  address FFE00000h             FFh  not answered (an address of straps 1); status stays 82h, ready, protected block
clock   8630  read   address FFD30000h             -    not answered (an address of straps 2)
clock   8649  read   address FF8C0100h             -    not answered (an address of straps 3)
clock   8668  read   address 7FF30000h             -    not answered (bits 23 to 31 are not all 1)
clock   8687  read   address FF7F0000h             -    not answered (bits 23 to 31 are not all 1)
clock   8706  begun  -                             -    dropped (cycle type 0h)
clock   8725  begun  -                             -    dropped (cycle type 8h)
clock   8742  begun  -                             -    aborted on clock 2
clock   8744  start  Dh begins no frame
clock   8745  write  array 00000h (block 0)        FFh  answered; status stays 82h, ready, protected block
clock   8762  read   array 2FFFFh (block 2)        5Ah  answered
clock   8781  read   address FFCC0000h             -    not answered (an address of straps 3)
clock   8800  read   register FFBC0000h            00h  answered
clock   8819  read   register FFBC0001h            00h  answered
clock   8838  pins   inputs 15h
clock   8838  read   inputs (FFBC0100h)            15h  answered
clock   8857  read   lock of block 3 (FFB30002h)   00h  answered
clock   8876  read   register FFB30003h            00h  answered
clock   8895  read   lock of block 15 (FFBF0002h)  01h  answered
end of the stream after 8,914 clocks; status 82h, ready, protected block; spoiled blocks: none
END
same out told
same board.img kept.img

case_ "with other straps the same addresses are another part's, and theirs its own"
printf 'part lpc\nread FFF30000\nread FFB30002\nread FFC30000\nread FF830002\nread FF8C0100\n' | lay >straps.stream
gives 0 bay trace board.img straps.stream --part lpc --straps 3
cat >told <<'END'
clock      0  pins   RP high, INIT high, TBL high, WP high, voltage normal, inputs 00h
clock      0  read   address FFF30000h             -    not answered (an address of straps 0)
clock     19  read   address FFB30002h             -    not answered (an address of straps 0)
clock     38  read   array 30000h (block 3)        5Ah  answered
clock     57  read   lock of block 3 (FF830002h)   01h  answered
clock     76  read   inputs (FF8C0100h)            00h  answered
end of the stream after 95 clocks; status 80h, ready; spoiled blocks: none
END
same out told

case_ "an LPC frame broken off on each of its clocks says on which; on clock 2 it has only begun"
for clock in 2 3 4 5 6 7 8 9 10 11 12 13 14 15 16 17 18 19; do
    for kind in read write; do
        byte=
        [ $kind = write ] && byte=FF
        [ $kind$clock = write18 ] || [ $kind$clock = write19 ] && continue
        printf 'part lpc\n%s FFF30000 %s break %d\n' $kind "$byte" $clock | lay >cut.stream
        gives 0 bay trace board.img cut.stream --part lpc
        says out "aborted on clock $clock"
        case $clock in
        2) says out "clock      0  begun  -                             -    aborted" ;;
        [3-9] | 10) says out "clock      0  $(printf %-5s $kind)  -                             -    aborted" ;;
        *) says out "clock      0  $(printf %-5s $kind)  array 30000h (block 3)" ;;
        esac
    done
done

case_ "a stream of one part traced as the other's: the starts begin no frame"
gives 0 bay trace board.img night.stream --part lpc
[ "$(grep -c 'begins no frame$' out)" -eq 20 ] || wrong "$(grep -c 'begins no frame$' out) starts that begin no frame"
grep -qE ' (read|write|begun) ' out && wrong "and yet there are frames"
gives 0 bay trace board.img sister.stream
says out "start  0h begins no frame"

case_ "the waveform: sigrok reads it without a complaint, wire by wire as the samples and answers are"
gives 0 bay trace board.img night.stream --times 10,1,30 --vcd night.vcd
same out want
if installed bay sigrok-cli; then
    gives 0 sigrok-cli -I vcd -i night.vcd --show
    [ -s err ] && wrong "sigrok complains: $(cat err)"
    for wire in clk frame host0 host3 device0 device3 device_drives RP INIT TBL WP voltage0 voltage1 ready \
        erase_suspended erase_error program_error voltage_error program_suspended protected_block; do
        says out "- $wire: logic"
    done
    says out "Channels: 24"
    # three frames
    printf 'read FBC0000\nwrite FB30002 00\ninputs 15\nvoltage 2\npin wp low\nread FBC0100\n' | lay >small.stream
    as_sigrok_sees small.stream
    [ "$(wc -l <seen)" -eq 55 ] || wrong "the stream is not the one that was meant"
fi

case_ "the same of the LPC part: frame line, nibbles and drives, clock by clock"
if installed bay sigrok-cli; then
    # an array read, a lock, the inputs; another part's address, another cycle type, and frames that are broken off
    lay >small.stream <<'END'
part lpc
read FFF30000
write FFB30002 00
inputs 15
voltage 2
pin wp low
read FFBC0100
read FFE30000
read FFF30000 type 2
pin wp high
voltage 1
write FFF30000 70
read FFF30000 break 17
write FFB30002 01 break 2
read FFF30000
END
    as_sigrok_sees small.stream --part lpc
    [ "$(wc -l <seen)" -eq 148 ] || wrong "the stream is not the one that was meant"
    # a frame of it in numbers: the sample's lower byte is E0h with the lines on clock 1, then F0h with them
    head -n 19 seen | awk '{ printf "%02X:%02X ", $1, $3 }' >first
    echo "E0:00 F4:00 FF:00 FF:00 FF:00 F3:00 F0:00 F0:00 F0:00 F0:00 FF:00 FF:00 FF:15 FF:15 FF:10 FF:1A FF:15 FF:1F FF:00 " |
        tr -d '\n' | cmp -s - first || wrong "the first frame is $(cat first)"
fi

case_ "the waveform on the standard output, the words on the standard error"
gives 0 bay trace board.img night.stream --times 10,1,30 --vcd -
same out night.vcd
says err "end of the stream after 8,801 clocks"

case_ "the same refusals as a run, before a word is printed"
head -c 1048575 board.img >short.img
gives 2 bay trace short.img night.stream --vcd new.vcd
explains
head -c 37 night.stream >odd.stream
gives 5 bay trace board.img odd.stream --vcd new.vcd
explains
{ cat night.stream; printf 'raw 07FF\n' | lay; } >class3.stream
gives 7 bay trace board.img class3.stream --vcd new.vcd
explains
gives 3 bay trace board.img night.stream --straps 16 --vcd new.vcd
gives 3 bay trace board.img night.stream --part lpc --straps 4 --vcd new.vcd
explains
hex 01 01 00 00 02 06 00 0A 00 01 00 1E 00 >quick.sheet
gives 64 bay trace board.img night.stream --part lpc --sheet quick.sheet --vcd new.vcd
explains
gives 64 bay trace board.img night.stream --part spi --vcd new.vcd
explains
gives 4 bay trace board.img night.stream --times 0,1,1 --vcd new.vcd
gives 66 bay trace missing.img night.stream --vcd new.vcd
explains
gives 66 bay trace board.img missing.stream --vcd new.vcd
explains
gives 64 bay trace board.img
explains
absent new.vcd
tidy

case_ "a full disk: the old waveform stays"
echo old >kept.vcd
gives 74 full 50 trace board.img night.stream --times 10,1,30 --vcd kept.vcd
explains
[ "$(cat kept.vcd)" = old ] || wrong "kept.vcd was written over"
tidy

case_ "interrupted with its file written beside and its words half out: the old waveform stays, nothing is left over"
i=0
while [ $i -lt 3000 ]; do
    echo "read FBC0000"
    i=$((i + 1))
done | lay >long.stream
mkfifo words
"$BAY_BUILD/bay" trace board.img long.stream --vcd kept.vcd >words 2>err &
running=$!
exec 9<words
tries=0
while [ -z "$(find . -name '.bay-*')" ] && [ $tries -lt 200 ]; do
    sleep 0.05
    tries=$((tries + 1))
done
[ -n "$(find . -name '.bay-*')" ] || wrong "nothing was ever written beside"
sleep 0.2
kill -INT $running 2>/dev/null
kill -TERM $running 2>/dev/null
ended $running
exec 9<&-
[ "$got" -gt 128 ] || wrong "status $got: it did not end by the signal"
[ "$(cat kept.vcd)" = old ] || wrong "kept.vcd was written over"
tidy

finish
