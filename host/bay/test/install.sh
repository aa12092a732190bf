#!/bin/sh
# make install, and what it left used as a stranger would use it: with pkg-config and the installed files alone.
. "$(dirname "$0")/lib.sh"

prefix=$work/prefix
make --no-print-directory -C "$root" QUICK=1 install PREFIX="$prefix" >install.log 2>&1

case_ "library, header, pkg-config file, bay and its manual page are in place"
says install.log "installed pod "
for file in lib/libpod.a include/pod.h lib/pkgconfig/pod.pc bin/bay share/man/man1/bay.1; do
    [ -s "$prefix/$file" ] || wrong "$file is not there: $(cat install.log)"
done
gives 0 "$prefix/bin/bay" demo
same out "$root/host/bay/test/demo.expected"
gives 0 "$prefix/bin/bay" --help

# The archive is for x86-64; on a machine of another kind the project's own compiler and emulator stand in, and what asks
# for more than those is not tried.
here=$(uname -m)
compiler=gcc
[ "$here" = x86_64 ] || compiler=$root/tools/cross-cc

# From here on nothing of the project is named but what was installed.
PKG_CONFIG_PATH=$prefix/lib/pkgconfig
export PKG_CONFIG_PATH

# compiled COMPILER FILE: the program that the file makes, with pkg-config's flags and no others but warnings.
compiled() {
    # shellcheck disable=SC2046 # pkg-config gives words
    "$1" -Wall -Wextra -pedantic -Werror -o program "$2" $(pkg-config --cflags --libs pod) >compile.log 2>&1 ||
        wrong "$2 does not compile: $(cat compile.log)"
}

case_ "a C program of ten lines, built with pkg-config alone"
installed face pkg-config
cat >ten.c <<'END_C'
#include <pod.h>
#include <stdio.h>
static uint8_t image[POD_IMAGE_BYTES];
int main(void)
{
    struct pod_powered up = pod_power_up(POD_PART_LPC, 3, 10, 3906, 30);
    struct pod_settled s = pod_settle(up.device, image, sizeof image, POD_SAMPLE_IDLE, 9);
    printf("%u %u %u %02Xh\n", up.number, s.number, s.count, pod_status(s.device));
    return up.number == POD_DONE && s.number == POD_DONE ? 0 : 1;
}
END_C
compiled "$compiler" ten.c
gives 0 ./program
[ "$(cat out)" = "0 0 0 80h" ] || wrong "it prints $(cat out)"

case_ "pkg-config's version is the header's"
cat >version.c <<'END_C'
#include <pod.h>
#include <stdio.h>
int main(void)
{
    return printf("%d.%d\n", POD_VERSION_MAJOR, POD_VERSION_MINOR) < 0;
}
END_C
compiled "$compiler" version.c
gives 0 ./program
[ "$(cat out)" = "$(pkg-config --modversion pod)" ] || wrong "$(cat out) and $(pkg-config --modversion pod)"

if [ "$here" != x86_64 ]; then
    echo "not tried on $here: C++, 32 bits, hardening"
    finish
fi

case_ "the same as C++"
installed face g++
cp ten.c ten.cc
compiled g++ ten.cc
gives 0 ./program
[ "$(cat out)" = "0 0 0 80h" ] || wrong "it prints $(cat out)"

case_ "the header alone says which machines it is for"
gcc -m32 -fsyntax-only "$prefix/include/pod.h" 2>err && wrong "a 32-bit compiler takes it"
says err "x86-64"

case_ "the installed bay is hardened"
readelf -hldW "$prefix/bin/bay" >elf
readelf -sW "$prefix/bin/bay" >symbols
says elf "DYN (Position-Independent Executable file)"
says elf "GNU_RELRO"
grep -q 'BIND_NOW\|FLAGS.* NOW' elf || wrong "its addresses are not all bound at the start"
grep -q 'GNU_STACK.* RW ' elf || wrong "its stack may be executed"
grep -q '__stack_chk_fail' symbols || wrong "its stack is not guarded"
grep -q '__[a-z]*_chk' symbols || wrong "its buffers are not guarded"

finish
