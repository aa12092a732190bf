#!/bin/sh
# Debian's flashrom against bay serve, of either part: probe, read, erase, write and verify, and the image file compared byte
# for byte. With the word "all" every block is written, else three of the FWH part and two of the LPC part.
. "$(dirname "$0")/lib.sh"

case_ "Debian's flashrom is installed"
installed bay flashrom || finish

# start OPTIONS...: a server for the part with board.img in the background; its process is in server, its port in port.
start() {
    rm -f log
    "$BAY_BUILD/bay" serve --port 0 --part "$part" "$@" board.img >log 2>err &
    server=$!
    tries=0
    until grep -q '^listening' log 2>/dev/null || [ $tries -ge 200 ]; do
        sleep 0.05
        tries=$((tries + 1))
    done
    port=$(sed -n 's/^listening on 127\.0\.0\.1:\([0-9]*\) .*/\1/p' log)
}

stop() {
    kill -TERM $server
    ended $server
    [ "$got" -eq 0 ] || wrong "the server's status is $got: $(cat err)"
}

# flashrom goes on for ever where its programmer is gone, so it has a time. A programmer that has not answered within a
# second is a broken one to it, before it has asked for anything; where the machine is busy elsewhere that is too short, so it
# may come five times. How often it came again is told at the end.
again=0
updater() {
    for come in 1 2 3 4 5; do
        timeout 3600 flashrom -p "serprog:ip=127.0.0.1:$port" "$@" >said 2>complained
        came=$?
        if [ "$come" -eq 5 ] || ! grep -q 'Programmer initialization failed' said complained; then
            break
        fi
        again=$((again + 1))
    done
    cat said
    cat complained >&2
    return "$came"
}
chip() { updater -c "$model" "$@"; }

# put BLOCK FILE: that block of new.img from the file
put() { dd if="$2" of=new.img bs=65536 skip="$1" seek="$1" count=1 conv=notrunc 2>/dev/null; }

seq 100000 300000 | head -c 1048576 >old.img
seq 500000 900000 | head -c 1048576 >other.img

# make_new WHAT BLOCKS...: new.img, with all of another image where WHAT is "all"; else with its blocks, and with three
# other bytes in block 7.
make_new() {
    if [ "$1" = all ]; then
        cp other.img new.img
        return
    fi
    shift
    cp old.img new.img
    for block in "$@"; do
        put "$block" other.img
    done
    printf '\060\060\060' | dd of=new.img bs=1 seek=458753 conv=notrunc 2>/dev/null
}

# write_and_verify BUS: flashrom's whole way with the part, from old.img to new.img.
write_and_verify() {
    cp old.img board.img

    case_ "flashrom finds the $model among all parts that it knows"
    start
    gives 0 updater
    says out "Found ST flash chip \"$model\" (1024 kB, $1) on serprog."
    [ "$(grep -c '^Found ' out)" -eq 1 ] || wrong "it finds others besides: $(grep '^Found ' out)"

    case_ "$model: it reads the image as the file has it"
    gives 0 chip -r read.img
    same read.img old.img

    case_ "$model: it erases and writes blocks and verifies them; the file then has the same bytes"
    began=$(date +%s)
    gives 0 chip -w new.img
    says out "VERIFIED."
    took=$(($(date +%s) - began))
    stop
    same board.img new.img

    case_ "$model: a new server has the same part to show: verified again and read back"
    start
    gives 0 chip -v new.img
    says out "VERIFIED."
    gives 0 chip -r read.img
    same read.img new.img

    case_ "$model: it erases one block by itself"
    echo "00050000:0005ffff five" >layout
    gives 0 chip -l layout -i five -E
    stop
    { head -c 327680 new.img; head -c 65536 /dev/zero | tr '\0' '\377'; tail -c 655360 new.img; } >want
    same board.img want

    case_ "$model: with write protect held low the same write fails, and the file is untouched"
    cp old.img board.img
    ln -f board.img witness.img
    start --wp low
    if chip -w new.img >out 2>&1; then
        wrong "the write did not fail"
    fi
    says out "ERASE FAILED!"
    says out "Good, writing to the flash chip apparently didn't do anything."
    gives 0 chip -r read.img
    same read.img old.img
    stop
    same board.img old.img
    [ "$(stat -c %h witness.img)" -eq 2 ] || wrong "the file was replaced by another"
}

part=fwh model=M50FW080
make_new "$1" 3 15
write_and_verify FWH
took_fwh=$took

part=lpc model=M50LPW080
make_new "$1" 15
write_and_verify LPC

case_ "neither part is taken for the other"
for pair in lpc:M50FW080 fwh:M50LPW080; do
    part=${pair%:*} model=${pair#*:}
    start
    if chip -r read.img >out 2>&1; then
        wrong "flashrom reads an $model where the part is $part"
    fi
    says out "No EEPROM/flash device found."
    stop
done

echo "flashrom's write and verify took $took_fwh seconds, of the LPC part $took; it came again $again times"
finish
