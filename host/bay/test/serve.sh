#!/bin/sh
# bay serve, spoken to byte by byte.
. "$(dirname "$0")/lib.sh"

# the door of a server that runs all the while stands beside
mkdir here && cd here || exit 1
make_image board.img
cp board.img kept.img
# what is left of it when 0Fh has been programmed into block 3
{ head -c 196608 kept.img; hex 0A; tail -c 851967 kept.img; } >written.img

# soon COMMAND...: waits until it holds, or the server is gone, but not for ever.
soon() {
    tries=0
    until "$@" 2>/dev/null || ! kill -0 "$server" 2>/dev/null || [ $tries -ge 1200 ]; do
        sleep 0.05
        tries=$((tries + 1))
    done
}

# launch COMMAND...: a server in the background; its process is in server, its port in port.
launch() {
    rm -f log
    "$@" >log 2>err &
    server=$!
    soon grep -q '^listening' log
    port=$(sed -n 's/^listening on 127\.0\.0\.1:\([0-9]*\) .*/\1/p' log)
    [ -n "$port" ] || wrong "the server does not listen: $(cat err)"
}

start() { launch "$BAY_BUILD/bay" serve --port 0 "$@"; }

# faulty FAULT WORDS...: the same, with a system call that fails (faulty.c says how a fault is named).
faulty() {
    fault=$1
    shift
    launch env "FAULTY=$fault" "$BAY_BUILD/bay_faulty" serve --port 0 "$@"
}

# used PID: the hundredths of a second that a program has had of the processor.
used() { awk '{ print $14 + $15 }' "/proc/$1/stat"; }

# spares PID BEFORE: it has had little since.
spares() {
    after=$(used "$1")
    { [ -n "$2" ] && [ -n "$after" ] && [ $((after - $2)) -le 30 ]; } || wrong "it had used '$2', and now '$after'"
}

# open_files: how many files the server has open.
open_files() { find "/proc/$server/fd" -mindepth 1 | wc -l; }

now() { date +%s; }

# answers WANT WORDS...: what one client is told.
answers() {
    want=$1
    shift
    said=$(poke "$port" "$@" 2>poke.err | tr '\n' ' ')
    [ "$said" = "$want " ] || wrong "$*: $said and not $want $(cat poke.err)"
}

# ends STATUS: waits for the server and compares its status with the one given.
ends() {
    ended $server
    [ "$got" -eq "$1" ] || wrong "the server's status is $got and not $1: $(cat err)"
}

# stop STATUS [SIGNAL]: ends the server.
stop() {
    kill "-${2:-TERM}" $server
    ends "$1"
}

# the client's addresses are three bytes, lowest first; block 3 is F30000, its lock B30002
case_ "who it is: version, requests, name, buses, buffers"
start board.img
answers 06 s:00 r:1
answers 1506 s:10 r:2
answers 060100 s:01 r:3
answers 06BFFF070000000000000000000000000000000000000000000000000000000000 s:02 r:33
answers 06626179204D3530465730383000000000 s:03 r:17
answers 06FFFF s:04 r:3
answers 0604 s:05 r:2
answers 060080 s:07 r:3
answers 06001000 s:08 r:4
answers 06000001 s:11 r:4
answers "06 06 15" s:1204 r:1 s:120F r:1 s:1203 r:1

case_ "a byte, several bytes, and the registers"
answers 065A s:090000F3 r:2
answers 065A5A5A5A s:0A0000F3040000 r:5
answers "0620 062D 0601" s:090000BC r:2 s:090100BC r:2 s:090200B3 r:2
answers "15 15" s:0A0000F3000000 r:1 s:0A0000F3010001 r:1

case_ "operations wait for their execution; a delay lets a program end"
# lock of block 3 to 00, program 40, 0F over 5A gives 0A, delay 20 microseconds, read array FF
answers "06 06 06 06 06 065A 06 0680" s:0B r:1 s:0C0200B300 r:1 s:0C0000F340 r:1 s:0C0000F30F r:1 s:0E14000000 r:1 \
    s:090000F3 r:2 s:0F r:1 s:090000F3 r:2
answers "06 06 060A" s:0C0000F3FF r:1 s:0F r:1 s:090000F3 r:2
stop 0
same board.img written.img
cp kept.img board.img

case_ "who the LPC part is: its name and its bus, and no other one"
start board.img --part lpc
answers 06626179204D35304C5057303830000000 s:03 r:17
answers 0602 s:05 r:2
answers "06 06 15 15" s:1202 r:1 s:120F r:1 s:1204 r:1 s:120D r:1

case_ "its bytes and registers: no maker, no device code, and the addresses of other straps are nobody's"
answers 065A s:090000F3 r:2
answers 065A5A5A5A s:0A0000F3040000 r:5
answers "0600 0600 0601 0600" s:090000BC r:2 s:090100BC r:2 s:090200B3 r:2 s:090001BC r:2
answers "06FF 06FF 06FF" s:090000E3 r:2 s:090200A3 r:2 s:09000073 r:2
# 90h shows the signature, FFh the array again
answers "06 06 0620 062F 06 06 065A" s:0C0000F090 r:1 s:0F r:1 s:090000F0 r:2 s:090100F0 r:2 s:0C0000F0FF r:1 s:0F r:1 \
    s:090000F0 r:2
# several bytes across the end of the address space: behind it is nobody
answers 065A5AFFFF s:0AFEFFFF040000 r:5
# lock of block 3 to 00, program 40, 0F over 5A gives 0A, delay 20 microseconds, read array FF
answers "06 06 06 06 06 06 0680 06 06 060A" s:0B r:1 s:0C0200B300 r:1 s:0C0000F340 r:1 s:0C0000F30F r:1 s:0E14000000 r:1 \
    s:0F r:1 s:090000F3 r:2 s:0C0000F3FF r:1 s:0F r:1 s:090000F3 r:2
stop 0
same board.img written.img
cp kept.img board.img

case_ "with straps 1 and 3 it stands one and three megabytes lower"
start board.img --part lpc --straps 1
answers "06FF 065A 0601 06FF" s:090000F3 r:2 s:090000E3 r:2 s:090200A3 r:2 s:090200B3 r:2
stop 0
start board.img --part lpc --straps 3
answers "06FF 065A 0601 06FF" s:090000F3 r:2 s:090000C3 r:2 s:09020083 r:2 s:090200B3 r:2
stop 0

case_ "several bytes written at once go to rising addresses; the buffer is bounded; begin drops what was laid by"
start board.img --rest 0 --times 1,1,1
# O_WRITEN of 3 bytes at the lock of block 3: 00, then two that fall on no register
answers "06 06 0600" s:0D0300000200B3000102 r:1 s:0F r:1 s:090200B3 r:2
answers "06 06 06 0600" s:0C0200B301 r:1 s:0B r:1 s:0F r:1 s:090200B3 r:2
{
    printf 's:0B r:1 '
    i=0
    while [ $i -lt 8 ]; do
        printf 's:0D001000000010%s r:1 ' "$(head -c 4096 /dev/zero | od -An -v -tx1 | tr -d ' \n')"
        i=$((i + 1))
    done
} >script
said=$(xargs "$BAY_BUILD/poke" "$port" <script | tr '\n' ' ')
[ "$said" = "06 06 06 06 06 06 06 06 15 " ] || wrong "a full buffer: $said"
# behind the last address the first one follows; a write of no bytes is turned away, and the line holds
answers 065A5A0000 s:0AFEFFFF040000 r:5
answers "15 06" s:0D0000000000F3 r:1 s:00 r:1
stop 0
same board.img kept.img

case_ "the bus rests before a request: a poll right behind a program finds the part busy, or ready after the rest"
for rest in 0:0600 300:0680; do
    start board.img --once --times 200,1,1 --rest ${rest%:*}
    answers "06 06 06 06 ${rest#*:}" s:0C0200B300 r:1 s:0C0000F340 r:1 s:0C0000F3FF r:1 s:0F r:1 s:090000F3 r:2
    ended $server
done
same board.img kept.img

case_ "a client that goes away, is nonsense or is silent ends its own line and nothing else"
start board.img --idle 1
answers "15 end" s:47 r:1 e
answers "15 end" s:13 r:1 e
answers "end" s:0D011000 s:0000F3 e
poke "$port" s:0900
poke "$port" s:0D000100
poke "$port" s:0A0000F3000001
answers "end" w:1500 e
answers 065A s:090000F3 r:2
says log "the client sent a request that is not known"
says log "the client was silent too long"
says log "the client closed the line"
says log "the client wrote more bytes at once than it was told"
stop 0
same board.img kept.img

case_ "no client leaves an open file behind"
start board.img --idle 1
answers 06 s:00 r:1
before=$(open_files)
for words in s:0900 s:0D000100 s:0A0000F3000001 s:47 s:0D011000 s:0E00 s:00 s:0F; do
    poke "$port" $words
    poke "$port"
done
answers "end" w:1500 e
answers 06 s:00 r:1
[ "$(open_files)" -le "$before" ] || wrong "$(open_files) open files, and $before before"
stop 0

# patient: a client in the background that waits for its answer.
patient() {
    "$BAY_BUILD/poke" "$port" s:00 r:1 >first 2>&1 &
    other=$!
}

# A server at whose door all but the first client fail, while other cases run. Its folder is away when the first client
# is gone, so that the image can be saved at the end only.
case_ "a server that lets one client in, and then nobody"
mkdir ../door
cd ../door || exit 1
cp ../here/kept.img board.img
faulty "24 accept 2+" "$work/door/board.img" --seconds 40 --times 1,1,1
"$BAY_BUILD/poke" "$port" s:0C0200B300 r:1 s:0C0000F340 r:1 s:0C0000F30F r:1 s:0F r:1 w:700 >/dev/null &
other=$!
sleep 0.3
mv ../door ../away
ended $other
soon test -s err
mv ../away ../door
says err "board.img cannot be written; nothing was changed"
same board.img ../here/kept.img
door=$server
door_used=$(used "$door")
door_began=$(now)
patient
door_client=$other
cd ../here || exit 1

case_ "a byte now and then keeps a line, until the server's time is over"
start board.img --idle 3 --seconds 5
poke "$port" s:0A w:1500 s:00 w:1500 s:00 w:1500 s:F3 e >first 2>&1
ends 0
says log "client 1 ends after 0 requests: time is over"
says log "the server ends: time is over"

case_ "nobody can be let in: the server uses little of the processor"
spares "$door" "$door_used"

# A client that sends a file and takes all that comes, as fast as it comes.
cat >eager <<'END'
exec 3<>"/dev/tcp/127.0.0.1/$1"
cat "$2" >&3
cat <&3 >/dev/null
END
printf %b "$(yes '\012\000\000\363\000\000\001' | head -n 500 | tr -d '\n')" >requests

case_ "a client that asks for much and takes it as fast as it comes holds up neither a signal nor the end of the time"
start board.img
bash eager "$port" requests 2>/dev/null &
other=$!
sleep 1
began=$(now)
stop 0
[ $(($(now) - began)) -le 5 ] || wrong "the signal was obeyed after $(($(now) - began)) seconds"
ended $other
began=$(now)
start board.img --seconds 2
bash eager "$port" requests 2>/dev/null &
other=$!
ends 0
[ $(($(now) - began)) -le 7 ] || wrong "the server of two seconds took $(($(now) - began))"
ended $other
same board.img kept.img

case_ "a reader of the server's words that is gone, or does not read, does not stop it"
mkfifo told
head -n 1 <told >log &
other=$!
"$BAY_BUILD/bay" serve --port 0 board.img >told 2>err &
server=$!
ended $other
port=$(sed -n 's/^listening on 127\.0\.0\.1:\([0-9]*\) .*/\1/p' log)
answers 06 s:00 r:1
answers 06 s:00 r:1
stop 0
# this script has the fifo open and reads nothing; what is written first leaves no room in it
exec 9<>told
dd if=/dev/zero of=told oflag=nonblock bs=4096 count=1000 2>/dev/null
timeout -k 1 10 "$BAY_BUILD/bay" serve --port 0 --seconds 1 board.img >told 2>err || wrong "it does not end: status $?"
# nor does a reader of its troubles: the first client's bytes cannot be saved, and the second is served all the same
launch timeout -k 1 10 env FAULTY="5 rename 1" \
    sh -c "exec '$BAY_BUILD/bay_faulty' serve --port 0 --clients 2 --times 1,1,1 board.img 2>told"
answers "06 06 06 06" s:0C0200B300 r:1 s:0C0000F340 r:1 s:0C0000F30F r:1 s:0F r:1
answers 06 s:00 r:1
ends 0
cp kept.img board.img
exec 9>&-

case_ "a client that asks and does not listen is ended too"
start board.img --idle 1
"$BAY_BUILD/poke" "$port" "s:$(yes 0A0000F3000001 | head -n 300 | tr -d '\n')" w:120000 &
other=$!
soon grep -q '^client 1 ends' log
kill $other
ended $other
says log "the client was silent too long"
answers 065A s:090000F3 r:2
stop 0

case_ "a first client that cannot be let in, for lack of open files or by its own fault, does not keep others out"
for error in 24 103; do
    faulty "$error accept 1" board.img --seconds 20
    patient
    answers 06 s:00 r:1
    ended $other
    [ "$(cat first)" = 06 ] || wrong "errno $error: the first client was told: $(cat first)"
    stop 0
done

case_ "nobody can be let in: a signal ends the server at once"
faulty "24 accept 1+" board.img --seconds 40
patient
sleep 1
began=$(now)
stop 0
[ $(($(now) - began)) -le 2 ] || wrong "it took $(($(now) - began)) seconds"
says log "no client can be let in: Too many open files; trying on for 10 seconds"
ended $other

case_ "many clients in a row that leave too early use little of the processor"
faulty "103 accept 1+" board.img --seconds 3
before=$(used "$server")
patient
sleep 2
spares "$server" "$before"
ends 0
ended $other

case_ "a system that does not even let the server wait: it ends and says so"
# without open files a checked build cannot look for lost memory
launch env ASAN_OPTIONS=detect_leaks=0 "$BAY_BUILD/bay" serve --port 0 board.img --seconds 20
prlimit --pid "$server" --nofile=1
patient
ends 71
says log "the server ends: the line broke"
says err "bay serve: no client can be let in"
says err "  found     Invalid argument"
ended $other

case_ "the device select of the frames is the straps' number"
start board.img --straps 3 --once
answers 0620 s:090000BC r:2
ended $server

case_ "one client at a time; the next one waits its turn"
start board.img
poke "$port" s:00 r:1 w:700 s:00 r:1 >first &
other=$!
sleep 0.2
answers 06 s:00 r:1
ended $other
[ "$(tr '\n' ' ' <first)" = "06 06 " ] || wrong "the first client was told $(cat first)"
stop 0
turns=$(grep -oE '^client [0-9] (begins|ends)' log | tr '\n' ',')
[ "$turns" = "client 1 begins,client 1 ends,client 2 begins,client 2 ends," ] || wrong "their turns are $turns"

case_ "while a server lives, no other bay writes its image"
printf 'read FBC0000\n' | lay >maker.stream
ln -s board.img link.img
start board.img --times 1,1,1
for image in board.img link.img; do
    gives 73 bay serve --port 0 --seconds 1 $image
    says err "another bay is writing this file, or serves it"
    gives 73 bay run kept.img maker.stream --save $image
    explains
done
answers "06 06 06 06" s:0C0200B300 r:1 s:0C0000F340 r:1 s:0C0000F30F r:1 s:0F r:1
stop 0
same board.img written.img
gives 0 bay run kept.img maker.stream --save link.img
start board.img
stop 137 KILL
start board.img --once
answers 06 s:00 r:1
ends 0
same board.img kept.img
tidy

case_ "a client that goes away in the middle of an erase: the part finishes, and the image is saved whole"
start board.img --rest 0
poke "$port" s:0C0200B300 r:1 s:0C0000F320 r:1 s:0C0000F3D0 r:1 s:0F r:1 >/dev/null
soon grep -q '^saved' log
{ head -c 196608 kept.img; head -c 65536 /dev/zero | tr '\0' '\377'; tail -c 786432 kept.img; } >erased.img
same board.img erased.img
says log "changed blocks: 3"
answers 0680 s:090000F3 r:2
stop 0
same board.img erased.img
tidy

case_ "write protect held low: the erase is turned away and the file is not touched"
cp kept.img board.img
ln board.img witness.img
start board.img --wp low
answers "06 06 06 06 0682" s:0C0200B300 r:1 s:0C0000F320 r:1 s:0C0000F3D0 r:1 s:0F r:1 s:090000F3 r:2
stop 0
same board.img kept.img
[ "$(stat -c %h witness.img)" -eq 2 ] || wrong "the file was replaced by another"

case_ "top block lock low, and a voltage below lockout"
start board.img --tbl low --once
answers "06 06 06 06 0682" s:0C0200BF00 r:1 s:0C0000FF20 r:1 s:0C0000FFD0 r:1 s:0F r:1 s:090000FF r:2
ends 0
start board.img --voltage 0 --once
answers "06 06 06 06 0688" s:0C0200B300 r:1 s:0C0000F320 r:1 s:0C0000F3D0 r:1 s:0F r:1 s:090000F3 r:2
ended $server
same board.img kept.img

case_ "bounded in count"
start board.img --clients 2
answers 06 s:00 r:1
answers 06 s:00 r:1
ends 0
says log "the last client is served"

case_ "only the loopback address, and no port that is taken"
start board.img
address=$(printf '0100007F:%04X' "$port")
grep -q " $address 00000000:0000 0A" /proc/net/tcp || wrong "no listener on 127.0.0.1"
hex_port=$(printf '%04X' "$port")
[ "$(grep -c ":$hex_port 00000000:0000 0A" /proc/net/tcp)" -eq 1 ] || wrong "more than one listener"
[ "$(grep -c ":$hex_port " /proc/net/tcp6 2>/dev/null)" -eq 0 ] || wrong "a listener on an IPv6 address"
gives 69 bay serve --port "$port" kept.img
explains
stop 0

case_ "SIGINT ends the server too, in the middle of a client, and what was written is saved"
launch env --default-signal=INT "$BAY_BUILD/bay" serve --port 0 board.img --times 1,1,1
"$BAY_BUILD/poke" "$port" s:0C0200B300 r:1 s:0C0000F340 r:1 s:0C0000F30F r:1 s:0F r:1 e >first 2>&1 &
other=$!
soon grep -qPz '(06\n){4}' first
stop 0 INT
ended $other
says first end
same board.img written.img
says log "the server is to end"
cp kept.img board.img

case_ "a full disk: the image file stays as it was, and the status says so"
launch sh -c "ulimit -f 200 && exec '$BAY_BUILD/bay' serve --port 0 board.img --times 1,1,1"
answers "06 06 06 06" s:0C0200B300 r:1 s:0C0000F340 r:1 s:0C0000F30F r:1 s:0F r:1
stop 74
says err "  expected  "
same board.img kept.img
tidy

case_ "what it cannot serve"
head -c 1048575 kept.img >short.img
turned_away() {
    status=$1
    shift
    gives "$status" bay serve "$@"
    explains
}
turned_away 64 board.img
turned_away 64 --port 65536 board.img
turned_away 64 --port http board.img
turned_away 2 --port 0 short.img
turned_away 66 --port 0 missing.img
turned_away 66 --port 0 missing/board.img
turned_away 7 --port 0 board.img --voltage 3
turned_away 64 --port 0 board.img --voltage 4
turned_away 64 --port 0 board.img --wp down
turned_away 64 --port 0 -
turned_away 3 --port 0 board.img --straps 16
turned_away 3 --port 0 board.img --part lpc --straps 4
turned_away 64 --port 0 board.img --part spi
hex 01 01 00 00 02 06 00 0A 00 01 00 1E 00 >quick.sheet
turned_away 64 --port 0 board.img --part lpc --sheet quick.sheet
turned_away 4 --port 0 board.img --times 0,0,0
turned_away 64 --port 0 board.img --clients 0
turned_away 64 --port 0 board.img --idle 0
gives 64 bay serve --port 0 --seconds 1 out
says err "the image and the standard output name the same file"
same board.img kept.img
tidy

case_ "nobody can be let in: the server gives up in time, says so, and saves what a client wrote"
ended "$door"
[ "$got" -eq 71 ] || wrong "the server's status is $got and not 71"
took=$(($(stat -c %Y ../door/log) - door_began))
{ [ $took -ge 9 ] && [ $took -le 20 ]; } || wrong "it gave up after $took seconds"
[ "$(grep -c 'trying on for' ../door/log)" -eq 1 ] || wrong "it did not say once that it tries on: $(cat ../door/log)"
says ../door/log "the server ends: no client can be let in"
says ../door/err "bay serve: no client can be let in"
says ../door/err "  expected  room for one more open file and its buffers within 10 seconds"
says ../door/err "  found     Too many open files"
same ../door/board.img written.img
ended "$door_client"

finish
