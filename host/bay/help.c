/* The texts that --help prints. An option, a command or a status has two blanks before it and its words from column 32
 * on; what is usual stands behind them as "(usually ..)". The manual page and docs/bay.md have the same words, which
 * test/help.sh compares. */
#include "bay/help.h"

#define SETTINGS                                                                                       \
    "  --part fwh|lpc                the M50FW080 or the M50LPW080 (usually fwh)\n"                    \
    "  --straps N                    the strap pins as a number, 0 to 15, on lpc 0 to 3\n"             \
    "                                (usually 0)\n"                                                    \
    "  --times PROGRAM,SLICE,PAUSE   three times, in microseconds (usually 10,3906,30)\n"              \
    "  --sheet FILE                  straps and times from a bay sheet instead, for fwh\n"

#define STATUSES "The exit status is 0 when done; bay --help has the others.\n"
#define NOTHING_CHANGED "On an error no file is changed, unless the message says so.\n"

const char help_bay[] =
    "bay: an M50FW080 or M50LPW080 flash part on the bench, clock by clock\n"
    "\n"
    "  bay demo                      the night that cost two boards, in seconds\n"
    "  bay run IMAGE STREAM          run a stream of samples on a copy of an image\n"
    "  bay trace IMAGE STREAM        the same, every frame in words or as a waveform\n"
    "  bay rack FOLDER               twelve bays side by side under one harness\n"
    "  bay serve --port N IMAGE      let flashrom at the part\n"
    "  bay sheet read SHEET          a bay sheet in words\n"
    "  bay sheet write SHEET         a bay sheet from words\n"
    "  bay COMMAND --help            more about one of them, as bay help COMMAND\n"
    "\n"
    "An option's value is the next word, or stands behind =, as in --times=10,1,30.\n"
    "Words behind -- are names, even if they begin with a dash.\n"
    "\n"
    "Exit status:\n"
    "\n"
    "  0                             done\n"
    "  1 to 10                       the library's refusal of that number\n"
    "  64                            the command line is not one that bay knows\n"
    "  65                            a text file does not say what it should\n"
    "  66                            a file cannot be read\n"
    "  69                            a port cannot be had\n"
    "  70                            bay or the library is at fault\n"
    "  71                            memory, processes or sockets ran out\n"
    "  73                            a file cannot be made there\n"
    "  74                            a file or the standard output cannot be written\n"
    "\n"
    "Example:  bay demo\n";

const char help_run[] =
    "bay run IMAGE STREAM [options]: run a stream of samples on a copy of an image\n"
    "\n"
    "IMAGE is the part's 1,048,576 bytes. STREAM has two bytes for each sample, lower\n"
    "first. Either may be - for the standard input. Prints the samples done, the\n"
    "status register in words, and a map of spoiled (S) and changed (C) blocks.\n"
    "\n" SETTINGS
    "  --answers FILE                write the answer bytes, one for each sample\n"
    "  --save FILE                   write the image as the run left it\n"
    "\n"
    "A FILE of - is the standard output; the report then goes to the standard error.\n"
    "\n" STATUSES NOTHING_CHANGED
    "\n"
    "Example:  bay run board.img night.stream --times 10,1,30 --save after.img\n";

const char help_trace[] =
    "bay trace IMAGE STREAM [options]: every frame of a stream in words\n"
    "\n"
    "One line for each frame (the clock that it began on, read or write, the address\n"
    "or the register's name, the byte, what became of it), for each change of a pin,\n"
    "and for each change of the status register that no write brought about.\n"
    "Clocks are counted from 0. An lpc frame that did not come to say whether it reads\n"
    "or writes is told as begun.\n"
    "\n" SETTINGS
    "  --vcd FILE                    also write the run as a waveform for GTKWave or sigrok\n"
    "\n"
    "A FILE of - is the standard output; the words then go to the standard error.\n"
    "\n" STATUSES NOTHING_CHANGED
    "\n"
    "Example:  bay trace board.img night.stream --vcd night.vcd\n";

const char help_demo[] =
    "bay demo: the night that cost two boards\n"
    "\n"
    "Twelve bays erase a block each while the harness pulls write protect low for all\n"
    "of them. The table shows what each block holds afterwards, and what the old model\n"
    "would have left there. No files are read or written.\n"
    "\n" STATUSES
    "\n"
    "Example:  bay demo\n";

const char help_rack[] =
    "bay rack FOLDER [options]: twelve bays side by side under one harness\n"
    "\n"
    "FOLDER has bay01.img and bay01.stream to bay12.img and bay12.stream, and may have\n"
    "bay01.sheet to bay12.sheet with straps and times, for the fwh part. A bay with\n"
    "neither image nor stream is empty. What is wrong with one bay does not stop the\n"
    "others.\n"
    "\n"
    "The harness track is text. From the clock that a line names, the pins that it\n"
    "names are so in all twelve streams, whatever the streams say:\n"
    "\n"
    "    at 0     voltage 1 wp high tbl high\n"
    "    at 1200  wp low                      # clocks do not fall from line to line\n"
    "\n"
    "  --part fwh|lpc                the part of the bays without a sheet (usually fwh)\n"
    "  --harness FILE                the track (usually FOLDER/harness.track, if there)\n"
    "  --save FOLDER                 write bay01.img to bay12.img as the run left them\n"
    "  --seconds SECONDS             end a bay that takes so long (usually 120)\n"
    "\n" STATUSES
    "With several bays in trouble it is the lowest number. A bay in trouble changes no\n"
    "file; the images of the others are written.\n"
    "\n"
    "Example:  bay rack tonight --save tomorrow\n";

const char help_serve[] =
    "bay serve --port N IMAGE [options]: let flashrom at the part\n"
    "\n"
    "Speaks flashrom's serprog protocol (bus type FWH or LPC, by the part) on 127.0.0.1,\n"
    "to one client at a time. The part stays powered from client to client. After each\n"
    "client, once the part is ready, IMAGE is replaced if it has changed. SIGINT, SIGTERM\n"
    "or SIGHUP ends the server the same way. While it lives no other bay writes IMAGE: one\n"
    "that would gets status 73.\n"
    "\n"
    "  --port N                      the port; 0 takes a free one and says which\n"
    "  --wp low|high                 hold write protect low or high (usually high)\n"
    "  --tbl low|high                hold top block lock low or high (usually high)\n"
    "  --voltage 0|1|2               below lockout, normal or twelve volts (usually 1)\n"
    "  --once                        end after one client\n"
    "  --clients N                   end after so many clients (usually 1000)\n"
    "  --idle SECONDS                end a client that is silent so long (usually 30)\n"
    "  --seconds SECONDS             end the server after so long (usually 28800)\n"
    "  --rest MICROSECONDS           the bus rests so long before each request, as it\n"
    "                                does behind a slow line (usually 100)\n" SETTINGS
    "\n"
    "flashrom looks at the top of the address space, where an lpc part is with straps 0.\n"
    "A client that sends a byte now and then is not silent; --seconds bounds it too.\n"
    "Where no client can be let in for ten seconds, for want of open files or memory,\n"
    "the server ends with status 71.\n"
    "\n" STATUSES
    "At any end the image is saved, if a client changed it.\n"
    "\n"
    "Example:  bay serve --port 4000 board.img\n"
    "and then  flashrom -p serprog:ip=127.0.0.1:4000 -c M50FW080 -r read.img\n"
    "(with --part lpc it is -c M50LPW080)\n";

const char help_sheet[] =
    "bay sheet read SHEET: a bay sheet's thirteen bytes in words\n"
    "bay sheet write SHEET [options]: a bay sheet from words\n"
    "\n"
    "A sheet says no part: it is one of the fwh part's.\n"
    "\n"
    "  --straps N                    the four strap pins as a number (usually 0)\n"
    "  --times PROGRAM,SLICE,PAUSE   three times, in microseconds (usually 10,3906,30)\n"
    "  --words FILE                  all four as bay sheet read prints them instead\n"
    "\n"
    "SHEET and FILE may be - for the standard input or output.\n"
    "\n" STATUSES NOTHING_CHANGED
    "\n"
    "Example:  bay sheet write bay03.sheet --straps 3 --times 10,3906,30\n";
