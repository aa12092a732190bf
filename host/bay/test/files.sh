#!/bin/sh
# What bay promises about files, with the program killed, interrupted and refused at each file operation in turn.
. "$(dirname "$0")/lib.sh"

make_image board.img && cp board.img new.img
printf 'read FBC0000\n' | lay >maker.stream
echo old >old
bay run board.img maker.stream --answers new.answers >new.report
bay sheet write new.sheet --straps 1
bay trace board.img maker.stream --vcd new.vcd >new.words

jobs="run_over run_fresh sheet trace"

# save JOB PROGRAM...: what a job saves, by the program given.
save() {
    job_now=$1
    shift
    case $job_now in
    run_*) "$@" run board.img maker.stream --answers answers --save save.img ;;
    sheet) "$@" sheet write kept.sheet --straps 1 ;;
    trace) "$@" trace board.img maker.stream --vcd kept.vcd ;;
    esac
}

# Whatever an earlier case has left, so that each stands for itself.
sweep() { find . -name '.bay-*' -exec rm -f {} +; }

# before JOB: its targets as they are before, and nothing beside them.
before() {
    sweep
    case $1 in
    run_over) cp old answers && cp old save.img ;;
    run_fresh) rm -f answers save.img ;;
    sheet) cp old kept.sheet ;;
    trace) cp old kept.vcd ;;
    esac
}

# state FILE NEW: old, new, none, or torn, which is neither.
state() {
    if [ ! -e "$1" ]; then
        echo none
    elif cmp -s "$1" old; then
        echo old
    elif cmp -s "$1" "$2"; then
        echo new
    else
        echo torn
    fi
}

states() {
    case $1 in
    run_*) echo "$(state answers new.answers) $(state save.img new.img)" ;;
    sheet) state kept.sheet new.sheet ;;
    trace) state kept.vcd new.vcd ;;
    esac
}

# all JOB old|new: the states of all its targets.
all() {
    case $1,$2 in
    run_over,* | run_fresh,new) echo "$2 $2" ;;
    run_fresh,old) echo "none none" ;;
    *) echo "$2" ;;
    esac
}

# are JOB STATES [WHEN]: its targets are so.
are() { [ "$(states "$1")" = "$2" ] || wrong "$1: $(states "$1") and not $2 ${3:-}"; }

# plan FAULTS WORDS...: bay with these faults.
plan() {
    faults=$1
    shift
    env FAULTY="$faults" "$BAY_BUILD/bay_faulty" "$@"
}

# with STATUS JOB FAULTS: the job from its beginning with these faults. A status of - is not compared; it is in got.
with() {
    before "$2"
    save "$2" plan "$3" >out 2>err
    got=$?
    [ "$1" = - ] || [ "$got" -eq "$1" ] || wrong "$2, $3: status $got and not $1"
}

# again JOB: an ordinary save of the same targets, after which all is new and nothing stands beside.
again() {
    save "$1" bay >out 2>err || wrong "$1: the save after it failed: $(cat err)"
    are "$1" "$(all "$1" new)" "by the save after it"
    tidy
}

# count_calls JOB: how many file operations it has, in calls.
count_calls() {
    before "$1"
    save "$1" env FAULTY_COUNT="$work/count" "$BAY_BUILD/bay_faulty" >out 2>err || wrong "$1 failed: $(cat err)"
    calls=$(cat count)
    [ "$calls" -ge 5 ] || wrong "$1 has $calls file operations"
}

case_ "killed at each file operation: every target is old or new and whole, and the next save clears up"
for job in $jobs; do
    count_calls "$job"
    for n in $(seq "$calls"); do
        with 137 "$job" "kill file $n"
        case $job,$(states "$job") in
        *torn* | run_over,*none* | sheet,none | trace,none) wrong "$job, killed at call $n: $(states "$job")" ;;
        esac
        left=$(find . -name '.?*' ! -name '.bay-*.draft' ! -name '.bay-*.old' ! -name '.bay-*.lock')
        [ -z "$left" ] || wrong "$job, killed at call $n: left over $left"
        again "$job"
    done
done

# A folder that could not be synced leaves new files, which is said. Of a name beside that could not be removed nothing
# is said, and the next save removes it.
case_ "each file operation failing: the targets are old, the words are true, nothing is left beside"
for job in $jobs; do
    count_calls "$job"
    for error in 5 28; do
        kept=0
        for n in $(seq "$calls"); do
            with - "$job" "$error file $n"
            want=$(all "$job" old)
            if [ $got -eq 0 ]; then
                want=$(all "$job" new)
                kept=$((kept + 1))
            else
                { [ $got -eq 73 ] || [ $got -eq 74 ]; } || wrong "$job, call $n: status $got"
                says err "  expected  "
                says err "  found     "
                says err "  do        "
                if grep -q "a folder could not be brought to disk" err; then
                    says err "but a power cut may bring the old back"
                    want=$(all "$job" new)
                else
                    says err "nothing was changed"
                fi
                tidy
            fi
            are "$job" "$want" "where call $n fails, status $got"
            again "$job"
        done
        [ $kept -le 3 ] || wrong "$job: $kept failures were passed over"
    done
done

case_ "SIGTERM behind each file operation: all old or all new, and nothing is left beside"
for job in $jobs; do
    count_calls "$job"
    for call in open:1 $(seq -f file:%g "$calls"); do
        with 143 "$job" "term ${call%:*} ${call#*:}"
        [ "$(states "$job")" = "$(all "$job" old)" ] || are "$job" "$(all "$job" new)" "at $call"
        tidy
    done
done

case_ "SIGTERM while the server starts leaves nothing beside its image"
sweep
env FAULTY_COUNT="$work/count" "$BAY_BUILD/bay_faulty" serve --port 0 board.img --seconds 1 >log 2>err
calls=$(cat count)
for call in open:1 $(seq -f file:%g $((calls - 1))); do
    sweep
    plan "term ${call%:*} ${call#*:}" serve --port 0 board.img --seconds 1 >log 2>err
    got=$?
    { [ $got -eq 143 ] || { [ $got -eq 0 ] && grep -q '^listening' log; }; } || wrong "$call: status $got, $(cat err)"
    tidy
done
same board.img new.img

# A bay that has begun to save ends its work; before that it is in trouble.
case_ "SIGTERM in the bays of a rack: a bay in trouble changes no file, and nothing is left beside"
mkdir tonight after
for bay in 01 02; do
    cp board.img tonight/bay$bay.img
    cp maker.stream tonight/bay$bay.stream
done
for call in malloc:1 open:1 open:2 unlink:1 unlink:2 fchmod:1 fsync:1 fsync:2 rename:1; do
    sweep
    cp old after/bay01.img
    rm -f after/bay02.img
    plan "term ${call%:*} ${call#*:}" rack tonight --save after >out 2>err
    found="$?, $(state after/bay01.img new.img) and $(state after/bay02.img new.img)"
    case $call,$found in
    malloc:1,"70, old and none" | [!m]*,"0, new and new") ;;
    *) wrong "$call: $found" ;;
    esac
    tidy
done

case_ "a signal that meets a bay of the rack before it has begun is not lost"
# the twelfth sigaction is the first by which a bay gives back what the rack has taken
rm -f after/*
gives 143 plan "term sigaction 12" rack tonight --save after
[ -z "$(ls -A after)" ] || wrong "the bays went on: $(ls -A after)"

case_ "where the second of two files cannot be put in place, the first is put back"
before run_over
chmod 640 answers
inode=$(stat -c %i answers)
gives 74 save run_over plan "5 rename 2"
says err "save.img could not be put in place; nothing was changed"
are run_over "old old"
[ "$(stat -c %i,%a answers)" = "$inode,640" ] || wrong "it is not the file that it was"
tidy
with 74 run_fresh "5 rename 2"
says err "nothing was changed"
are run_fresh "none none"
tidy

case_ "the same on a disk without hard links, where a copy is kept"
before run_over
chmod 640 answers
gives 74 save run_over plan "1 link 1, 5 rename 2"
says err "nothing was changed"
are run_over "old old"
[ "$(stat -c %a answers)" = 640 ] || wrong "the mode has changed"
tidy
with 0 run_over "1 link 1"
are run_over "new new"
tidy
for fault in "28 open 5" "28 write 3" "28 fchmod 3" "28 fsync 3"; do
    with 74 run_over "1 link 1, $fault"
    says err "nothing was changed"
    says err "  found     No space left on device"
    are run_over "old old"
    tidy
done
with 143 run_over "1 link 1, term write 3"
are run_over "old old"
tidy

case_ "where the first cannot be put back either, it is said which is new and which is old"
with 74 run_over "5 rename 2+"
says err "  found     Input/output error, then Input/output error; new: answers (the old one is beside it as .bay-"
says err "; as before: save.img"
grep -q "nothing was changed" err && wrong "it says that nothing was changed"
are run_over "new old"
same "$(find . -name '.bay-*')" old
again run_over
with 74 run_fresh "5 rename 2, 30 unlink 5"
says err "then Read-only file system; new: answers; as before: save.img"
are run_fresh "new none"
tidy
part=$(printf '%0200d' 0)
deep=$part/$part/$part/$part/$part/$part/$part/$part
mkdir -p "$deep"
cp old "$deep/answers"
gives 74 plan "5 rename 2+" run board.img maker.stream --answers "$deep/answers" --save "$deep/save.img"
kept=$(find . -name '.bay-*')
says err "; new: $deep/answers (the old one is beside it as ${kept##*/}); as before: $deep/save.img"
says err "  do        "
rm -r "$part"

case_ "no target is missing while it is put back"
with 137 run_over "5 rename 2, kill rename 3"
are run_over "new old"
again run_over

case_ "the mode stays; a disk that knows no modes is written all the same, and one that fails is told"
for error in 1 95 38; do
    rm -f answers save.img
    with 0 run_over "$error fchmod 1+"
    are run_over "new new"
done
rm answers save.img
with 74 run_over "5 fchmod 1"
says err "answers cannot be replaced by a file of the same mode; nothing was changed"
are run_over "old old"
chmod 600 answers save.img # as a draft is from the beginning
gives 0 save run_over plan "5 fchmod 1"
rm answers save.img

case_ "owner and group stay where that is allowed"
before run_over
if chown 12345:12346 save.img 2>/dev/null; then
    gives 0 save run_over bay
    [ "$(stat -c %u:%g save.img)" = 12345:12346 ] || wrong "it belongs to $(stat -c %u:%g save.img)"
    gives 0 save run_over plan "1 fchown 1+"
    are run_over "new new"
fi

case_ "an interrupted sync and a lock that is gone are tried again; what cannot be looked at is no other bay's"
with 0 run_over "4 fsync 1, 4 fsync 3, 4 fsync 5"
with 0 sheet "13 open 1"
are sheet new
for look in 73:2 74:3; do
    with "${look%:*}" sheet "5 lstat ${look#*:}"
    says err "  found     Input/output error"
    are sheet old
done

case_ "two bays at once: the file is one of the two, whole"
tr Z Y <board.img >other.img
for try in $(seq 10); do
    sweep
    cp old both.img
    "$BAY_BUILD/bay" run board.img maker.stream --save both.img >out 2>err &
    one=$!
    "$BAY_BUILD/bay" run other.img maker.stream --save both.img >out2 2>err2 &
    two=$!
    ended $one
    one=$got
    ended $two
    two=$got
    case $one,$two in
    0,0) cmp -s both.img board.img || same both.img other.img ;;
    0,73) same both.img board.img ;;
    73,0) same both.img other.img ;;
    *) wrong "try $try: the statuses are $one and $two" ;;
    esac
    tidy
done

# slow PROGRAM...: a bay that has written its waveform beside both.img and waits until its words are read from the file
# 9; its process is in running.
seq 3000 | sed 's/.*/read FBC0000/' | lay >long.stream
mkfifo words
slow() {
    sweep
    cp old both.img
    "$@" trace board.img long.stream --vcd both.img >words 2>slow.err &
    running=$!
    exec 9<words
    tries=0
    until [ -n "$(find . -name '.bay-*.draft' -size +100k)" ] || [ $tries -ge 200 ]; do
        sleep 0.05
        tries=$((tries + 1))
    done
    sleep 0.1
}

# finishes STATUS: its words are read, and it ends so.
finishes() {
    cat <&9 >/dev/null
    ended $running
    exec 9<&-
    [ "$got" -eq "$1" ] || wrong "the slow bay: status $got and not $1, $(cat slow.err)"
}

case_ "a standard output that does not block is waited for"
bay trace board.img long.stream >want
{
    dd oflag=nonblock </dev/null 2>/dev/null
    bay trace board.img long.stream 2>err
} | { sleep 0.3 && cat >out; }
same out want

case_ "a file that another bay is writing is left alone"
slow "$BAY_BUILD/bay"
gives 73 bay run board.img maker.stream --save both.img
explains
says err "another bay is writing this file"
[ "$(state both.img new.img)" = old ] || wrong "it was written all the same"
gives 73 bay serve --port 0 both.img --seconds 1
finishes 0
grep -qF enddefinitions both.img || wrong "the other bay's file is not there"
tidy

case_ "on a disk that knows no locks a save goes on; of two at once one finds its draft gone, and the file is whole"
with 0 run_over "95 flock 1+"
are run_over "new new"
with 137 run_over "95 flock 1+, kill rename 2"
again run_over
slow env FAULTY="95 flock 1+" "$BAY_BUILD/bay_faulty"
gives 0 plan "95 flock 1+" run board.img maker.stream --save both.img
finishes 73
says slow.err "another bay is writing this file"
same both.img board.img
tidy
slow env FAULTY="95 flock 1+" "$BAY_BUILD/bay_faulty"
plan "95 flock 1+, kill rename 1" run board.img maker.stream --save both.img >out 2>err
finishes 73
same "$(find . -name '.bay-*.draft')" board.img # the other's, which is not the slow bay's to remove
[ "$(state both.img new.img)" = old ] || wrong "a draft that was not its own was put in place"
gives 0 bay run board.img maker.stream --save both.img
tidy

case_ "more signals while the first is cleaned up after"
with 143 run_over "term write 2, term unlink 5"
are run_over "old old"
tidy
for try in 1 2 3; do
    slow "$BAY_BUILD/bay"
    for shot in $(seq 200); do
        kill -TERM $running 2>/dev/null || break
    done
    ended $running
    exec 9<&-
    [ "$got" -eq 143 ] || wrong "try $try: status $got after $shot signals"
    [ "$(state both.img new.vcd)" = old ] || wrong "try $try: the file is not the old one"
    tidy
done

case_ "a link under a draft's name is not written through"
with 137 sheet "kill rename 1"
draft=$(find . -name '.bay-*.draft')
rm "$draft"
echo precious >precious
ln -s precious "$draft"
again sheet
[ "$(cat precious)" = precious ] || wrong "it was written through"

case_ "one file under two spellings is refused before any work, and nothing is written"
ln -s answers link
ln -s nowhere dangling
mkdir folder
ln -s folder way
for pair in answers,./answers answers,link "answers,$work/answers" none,./none none,folder/../none nowhere,dangling \
    folder/none,way/none; do
    before run_over
    gives 64 bay run missing.img maker.stream --answers "${pair%,*}" --save "${pair#*,}"
    explains
    says err "--answers and --save name the same file"
    says err "  found     ${pair%,*} and ${pair#*,}"
    are run_over "old old"
done
gives 64 bay run board.img maker.stream --save out
says err "--save and the standard output name the same file"
gives 64 bay trace board.img maker.stream --vcd ./out
says err "--vcd and the standard output name the same file"
rm -f after/*
ln -s bay02.img after/bay01.img
gives 64 bay rack tonight --save after
explains
says err "bay 1 and bay 2 name the same file"
rm tonight/bay01.*
gives 0 bay rack tonight --save after
same after/bay02.img new.img
tidy

case_ "two hard links are two files, a link to nowhere stays a link, and an output may be the image itself"
before run_over
ln -f answers save.img
gives 0 save run_over bay
are run_over "new new"
gives 0 bay run board.img maker.stream --answers dangling --save ./board.img
same nowhere new.answers
[ -L dangling ] || wrong "the link is no link any more"
same board.img new.img
tidy

case_ "a signal that cannot be set aside is told as what it is"
gives 71 plan "22 sigaction 1" --help
explains
says err "  found     Invalid argument"
gives 71 plan "22 sigaction 1"

finish
