# shellcheck shell=sh
# Shared by the test scripts: a folder to work in, the built programs, and a count of the cases that held.
# BAY_BUILD says where the programs were built, if not in the project's build folder.

root=$(cd "$(dirname "$0")/../../.." && pwd)
case ${BAY_BUILD:=build} in
/*) ;;
*) BAY_BUILD=$root/$BAY_BUILD ;;
esac
PATH=$PATH:/usr/sbin:/sbin
LC_ALL=C
export BAY_BUILD PATH LC_ALL
for program in bay bay_faulty lay poke; do
    if [ ! -x "$BAY_BUILD/$program" ]; then
        echo "${0##*/}: expected $BAY_BUILD/$program, which make host builds, and found none"
        echo "0 passed, 1 failed"
        exit 1
    fi
done

work=$(mktemp -d) || exit 1
trap 'cd /; rm -rf "$work"' EXIT
cd "$work" || exit 1

passed=0
failed=0
name=

bay() { "$BAY_BUILD/bay" "$@"; }
faulty() { "$BAY_BUILD/bay_faulty" "$@"; }
lay() { "$BAY_BUILD/lay"; }
poke() { "$BAY_BUILD/poke" "$@"; }

# full BLOCKS WORDS...: bay where no file grows beyond so many blocks, as on a full disk.
full() { (ulimit -f "$1" && shift && bay "$@"); }

# installed GROUP PROGRAM: has the project install what a test needs; a case fails where that cannot be.
installed() {
    command -v "$2" >/dev/null && return
    "$root/tools/setup" "$1" >"$work/setup.log" 2>&1
    command -v "$2" >/dev/null && return
    wrong "$2 is not installed: $(cat "$work/setup.log")"
    false
}

# Ends the case before it, if there is one, and begins another.
case_() {
    end_case
    name=$1
    bad=
}

end_case() {
    [ -z "$name" ] && return
    if [ -z "$bad" ]; then
        passed=$((passed + 1))
    else
        failed=$((failed + 1))
        printf 'FAILED  %s: %s\n%s\n' "${0##*/}" "$name" "$bad"
    fi
    name=
}

# Something in this case did not hold.
wrong() { bad="$bad    $*
"; }

# gives STATUS COMMAND...: runs it, keeps what it printed in the files out and err, and compares the exit status.
gives() {
    want=$1
    shift
    "$@" >out 2>err
    got=$?
    [ "$got" -eq "$want" ] || wrong "status $got and not $want: $* ($(head -c 300 err))"
}

# says FILE WORDS: the file has the words in one of its lines.
says() { grep -qF -- "$2" "$1" || wrong "$1 does not say: $2 (but: $(head -c 300 "$1"))"; }

# An error that a person can use: what was expected, what was found, what to do, and nothing on the standard output.
explains() {
    says err "  expected  "
    says err "  found     "
    says err "  do        "
    [ -s out ] && wrong "an error, and yet something on the standard output"
}

# ended PID: waits for a program in the background and keeps its exit status in got.
ended() {
    wait "$1" 2>/dev/null
    got=$?
}

same() { cmp -s "$1" "$2" || wrong "$1 and $2 differ"; }
absent() { [ ! -e "$1" ] || wrong "$1 is there"; }

# No file that was written beside its target is left over.
tidy() { [ -z "$(find . -name '.bay-*')" ] || wrong "left over: $(find . -name '.bay-*')"; }

# hex BYTES...: writes the bytes that the hexadecimal digits name.
hex() { for byte in "$@"; do printf %b "\\0$(printf %o "0x$byte")"; done; }

# An image of the part's size, every byte of it Z (5Ah).
make_image() { head -c 1048576 /dev/zero | tr '\0' 'Z' >"$1"; }

finish() {
    end_case
    echo "$passed passed, $failed failed"
    [ $failed -eq 0 ]
    exit
}
