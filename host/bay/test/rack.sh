#!/bin/sh
# bay rack, as a person runs it.
. "$(dirname "$0")/lib.sh"

make_image board.img
hex 01 01 00 00 02 06 00 0A 00 01 00 1E 00 >quick.sheet

# bay N erases block N - 1, begun 600 clocks later from bay to bay
rack_folder() {
    mkdir "$1"
    for bay in 01 02 03 04 05 06 07 08 09 10 11 12; do
        cp board.img "$1/bay$bay.img"
        cp quick.sheet "$1/bay$bay.sheet"
        digit=$(printf %X $((${bay#0} - 1)))
        printf 'idle %d\nwrite FB%s0002 00\nwrite FF%s0000 20\nwrite FF%s0000 D0\nidle 9000\n' \
            $((${bay#0} * 600)) "$digit" "$digit" "$digit" | lay >"$1/bay$bay.stream"
    done
}

rack_folder tonight
echo "at 6500 wp low   # for all twelve" >tonight/harness.track

case_ "twelve bays under one harness: what was begun before the pull finishes, what comes after is turned away"
mkdir after
gives 0 bay rack tonight --save after
cat >want <<'END'
bay  outcome  part  samples  status                                spoiled   changed
  1  done     fwh     9,651  80h, ready                            none      0
  2  done     fwh    10,251  80h, ready                            none      1
  3  done     fwh    10,851  80h, ready                            none      2
  4  done     fwh    11,451  80h, ready                            none      3
  5  done     fwh    12,051  80h, ready                            none      4
  6  done     fwh    12,651  80h, ready                            none      5
  7  done     fwh    13,251  80h, ready                            none      6
  8  done     fwh    13,851  80h, ready                            none      7
  9  done     fwh    14,451  80h, ready                            none      8
 10  done     fwh    15,051  80h, ready                            none      9
 11  done     fwh    15,651  82h, ready, protected block           none      none
 12  done     fwh    16,251  82h, ready, protected block           none      none
12 done, 0 not, 0 empty
END
same out want
says err "12 of 12"
[ "$(grep -c 'is home' err)" -eq 12 ] || wrong "not twelve lines of progress"

case_ "the saved images are those of bay run on the same streams, and the rack's own are untouched"
for bay in 01 04 10 12; do
    cmp -s tonight/bay$bay.img board.img || wrong "bay $bay's image was written over"
done
gives 0 bay run tonight/bay04.img tonight/bay04.stream --sheet tonight/bay04.sheet --save alone.img
same alone.img after/bay04.img
same after/bay11.img board.img
same after/bay12.img board.img

case_ "one bay's bad file does not stop the others; the status is the lowest refusal"
cp -r tonight bad
head -c 1048575 board.img >bad/bay01.img
head -c 37 tonight/bay02.stream >bad/bay02.stream
rm bad/bay03.img
{ cat tonight/bay05.stream; printf 'raw 07FF\n' | lay; } >bad/bay05.stream
echo nonsense >bad/bay06.sheet
hex 01 01 00 10 02 06 00 0A 00 01 00 1E 00 >bad/bay07.sheet
rm bad/bay08.*
rm bad/bay09.stream
mkdir bad/bay09.stream
mkdir saved
gives 2 bay rack bad --save saved
says out "  1  refusal 2"
says out "  2  refusal 5"
says out "  3  trouble 66"
says out "  4  done     fwh    11,451  80h, ready                            none      3"
says out "  5  refusal 7"
says out "  6  refusal 8"
says out "  7  refusal 3"
says out "  8  empty"
says out "  9  trouble 66"
says out " 10  done"
says out "4 done, 7 not, 1 empty"
for bay in 1 2 3 5 6 7 9; do
    says err "bay rack: bay $bay: "
done
says err "  expected  "
says err "  do        "
for bay in 01 02 03 05 06 07 08 09; do
    absent saved/bay$bay.img
done
same saved/bay04.img after/bay04.img
tidy

case_ "the status of other trouble, where no bay is refused"
cp -r tonight gone
rm gone/bay03.img
gives 66 bay rack gone
says out "11 done, 1 not, 0 empty"

case_ "a harness for voltage and top block lock; class 3 is each bay's refusal 7"
cp -r tonight volts
echo "at 0 voltage 0" >volts/harness.track
gives 0 bay rack volts
[ "$(grep -c '88h, ready, voltage too low' out)" -eq 12 ] || wrong "not twelve with too low a voltage"
echo "at 0 voltage 3" >volts/harness.track
gives 7 bay rack volts
[ "$(grep -c 'refusal 7' out)" -eq 12 ] || wrong "not twelve refusals"
mkdir top
cp board.img top/bay01.img
cp quick.sheet top/bay01.sheet
printf 'write FBF0002 00\nwrite FFF0000 20\nwrite FFF0000 D0\n' | lay >top/bay01.stream
printf 'at 0 tbl low wp high\n' >top/harness.track
gives 0 bay rack top
says out "  1  done     fwh        51  82h, ready, protected block"
says out "1 done, 0 not, 11 empty"
printf 'at 0 tbl low\nat 46 tbl high\n' >top/harness.track
gives 0 bay rack top
says out "82h" # the write acts on clock 34 + 11
printf 'at 0 tbl low\nat 45 tbl high\n' >top/harness.track
gives 0 bay rack top
says out "00h, busy"

case_ "another track, and none"
echo "at 0 wp low tbl low" >all.track
gives 0 bay rack tonight --harness all.track
[ "$(grep -c '82h' out)" -eq 12 ] || wrong "not twelve turned away"
gives 0 bay rack top --harness /dev/null
says out "00h, busy"
gives 66 bay rack tonight --harness missing.track
explains

case_ "a rack of both parts: a bay with a sheet holds the FWH part, the others what --part says"
mkdir mixed mixed.after
for bay in 01 02 03 04; do
    cp board.img mixed/bay$bay.img
done
cp tonight/bay01.stream tonight/bay01.sheet mixed
printf 'part lpc\nwrite FFB10002 00\nwrite FFF10000 40\nwrite FFF10000 0F\nidle 400\n' | lay >mixed/bay02.stream
cp mixed/bay02.stream mixed/bay03.stream
cp tonight/bay01.sheet mixed/bay03.sheet
printf 'write FB10002 00\nwrite FF10000 40\nwrite FF10000 0F\nidle 400\n' | lay >mixed/bay04.stream
gives 0 bay rack mixed --part lpc --save mixed.after
head -n 5 out >rows
cat >told <<'END'
bay  outcome  part  samples  status                                spoiled   changed
  1  done     fwh     9,651  80h, ready                            none      0
  2  done     lpc       451  80h, ready                            none      1
  3  done     fwh       451  80h, ready                            none      none
  4  done     lpc       451  80h, ready                            none      none
END
same rows told
says out "4 done, 0 not, 8 empty"
gives 0 bay run board.img mixed/bay02.stream --part lpc --save alone.img
same alone.img mixed.after/bay02.img
cmp -s alone.img board.img && wrong "the LPC part has programmed nothing"
same mixed.after/bay01.img after/bay01.img

case_ "without --part, and with --part fwh, all bays hold the FWH part"
for part in "" "--part fwh"; do
    # shellcheck disable=SC2086 # no option, or one with its value
    gives 0 bay rack mixed $part
    says out "  2  done     fwh       451  80h, ready                            none      none"
    says out "  4  done     fwh       451  80h, ready                            none      1"
    grep -q lpc out && wrong "one of them holds the LPC part"
done

case_ "the harness holds the pins of the LPC part too"
echo "at 0 wp low" >low.track
gives 0 bay rack mixed --part lpc --harness low.track
says out "  2  done     lpc       451  82h, ready, protected block           none      none"

case_ "a word that is no part stops the rack before it begins"
mkdir unsaved
for word in spi LPC ''; do
    gives 64 bay rack mixed --part "$word" --save unsaved
    explains
    says err "expected  fwh for the M50FW080, lpc for the M50LPW080"
    grep -q 'is home' err && wrong "a bay has begun"
done
[ -z "$(ls -A unsaved)" ] || wrong "left: $(ls -A unsaved)"

case_ "a track that is none stops the rack before it begins"
for line in "at wp low" "at 5" "at 5 wp" "at 5 wp up" "at 5 rp low" "at 5 voltage 4" "at -1 wp low" "wp low" \
    "at 5 wp low tbl"; do
    printf '# a remark\n\n%s\n' "$line" >bad.track
    gives 65 bay rack tonight --harness bad.track
    explains
    says err "line 3"
done
printf 'at 9 wp low\nat 8 wp high\n' >bad.track
gives 65 bay rack tonight --harness bad.track
says err "line 2"
gives 65 bay rack tonight --harness board.img
explains
gives 65 bay rack tonight --harness /dev/zero
explains

case_ "no such folder"
gives 66 bay rack missing
explains
gives 66 bay rack tonight --save missing
explains
gives 66 bay rack board.img
explains
gives 64 bay rack
explains
gives 64 bay rack tonight --seconds 0
explains
mkdir none
gives 0 bay rack none
says out "0 done, 0 not, 12 empty"

case_ "what cannot be looked at is in trouble, and not absent"
mkdir blind
for bay in 01 02; do
    cp board.img tonight/bay$bay.stream blind
    mv blind/board.img blind/bay$bay.img
done
ln -s bay01.sheet blind/bay01.sheet
ln -s nowhere blind/bay02.sheet
ln -s bay03.img blind/bay03.img
ln -s nowhere blind/bay04.stream
gives 66 bay rack blind
for bay in 1 2 3 4; do
    says out "  $bay  trouble 66"
    says err "bay rack: bay $bay: "
done
says out "0 done, 4 not, 8 empty"
ln -s harness.track blind/harness.track
gives 66 bay rack blind
explains
says err "blind/harness.track cannot be read"
gives 66 env FAULTY="13 lstat 1+" "$BAY_BUILD/bay_faulty" rack none
explains
gives 66 env FAULTY="13 lstat 1+" "$BAY_BUILD/bay_faulty" rack none --harness /dev/null
says out "0 done, 12 not, 0 empty"

case_ "a folder whose name is too long"
dots=$(printf '/.%.0s' $(seq 2042))
gives 66 bay rack "none$dots"
explains
says err "  found     File name too long"
gives 66 bay rack tonight --save "none$dots"
explains
[ -z "$(ls -A none)" ] || wrong "left: $(ls -A none)"

case_ "nobody reads the standard error: the rack goes on"
mkfifo unread
true <unread &
other=$!
exec 9>unread
ended $other
bay rack tonight >out 2>&9
got=$?
exec 9>&-
[ $got -eq 0 ] || wrong "status $got"
same out want

case_ "a system that does not let the rack wait: each bay is waited for in turn"
gives 0 timeout -k 1 20 env FAULTY="22 poll 1+" "$BAY_BUILD/bay_faulty" rack tonight
same out want

case_ "a bay for which there is no memory"
mkdir one
cp board.img one/bay01.img
cp tonight/bay01.stream one
gives 71 env FAULTY="12 malloc 1+" "$BAY_BUILD/bay_faulty" rack one
says out "  1  trouble 71"
says err "bay rack: bay 1 ended before it was done"
says err "  found     none, status 71"

case_ "a full disk: no half-written image, and the status says so"
mkdir little
gives 74 full 200 rack tonight --save little
[ -z "$(ls -A little)" ] || wrong "left: $(ls -A little)"

case_ "a bay that waits for ever is ended after its time, and the others are done"
cp -r tonight stuck
rm stuck/bay02.img
mkfifo stuck/bay02.img
gives 70 bay rack stuck --seconds 2
says out "11 done, 1 not, 0 empty"
says err "bay rack: bay 2 ended before it was done"
gives 70 timeout -k 1 20 env --ignore-signal=ALRM "$BAY_BUILD/bay" rack stuck --seconds 1
says err "  found     its time over, signal 14"

case_ "interrupted: it ends by the signal, and no bay goes on"
mkdir cut
: >err
"$BAY_BUILD/bay" rack stuck --save cut --seconds 60 >out 2>err &
running=$!
tries=0
while [ "$(grep -c 'is home' err)" -lt 11 ] && [ $tries -lt 200 ]; do
    sleep 0.05
    tries=$((tries + 1))
done
began=$(date +%s)
kill -TERM $running
ended $running
[ "$got" -eq 143 ] || wrong "status $got: it did not end by the signal"
[ $(($(date +%s) - began)) -lt 20 ] || wrong "it waited for the bay that waits for ever"
absent cut/bay02.img
same cut/bay04.img after/bay04.img
tidy

finish
