/* Each kind of input as a command of bay is given it. */
#include "fuzz/kinds.h"

#include "bay/bench.h"
#include "bay/commands.h"
#include "bay/link.h"
#include "bay/serprog.h"
#include "bay/text.h"
#include "bay/track.h"
#include "bay/trouble.h"
#include "bus/addresses.h"
#include "bus/commands.h"
#include "bus/frames.h"
#include "fuzz/agree.h"
#include "fuzz/client.h"
#include "fuzz/pieces.h"
#include "pod.h"

#include <fcntl.h>
#include <stdio.h>
#include <stdlib.h>
#include <string.h>
#include <sys/stat.h>
#include <sys/types.h>
#include <unistd.h>

/* A child that cannot make its files ends with this, which is no status of bay. */
enum { NO_FILES = 98 };

enum { IMAGE_MOST = 2 * POD_IMAGE_BYTES };
static uint8_t image_room[IMAGE_MOST];

static bool file_put(const char *path, const uint8_t *at, size_t length)
{
    int file = open(path, O_WRONLY | O_CREAT | O_TRUNC | O_CLOEXEC, 0600);
    size_t done = 0;
    while (file >= 0 && done < length) {
        ssize_t more = write(file, at + done, length - done);
        if (more <= 0) {
            break;
        }
        done += (size_t)more;
    }
    return file >= 0 && close(file) == 0 && done == length;
}

static void must_put(const char *path, const uint8_t *at, size_t length)
{
    if (!file_put(path, at, length)) {
        _exit(NO_FILES);
    }
}

/* The file becomes the standard input. */
static void must_stand_in(const char *path)
{
    int file = open(path, O_RDONLY | O_CLOEXEC);
    if (file < 0 || dup2(file, STDIN_FILENO) < 0) {
        _exit(NO_FILES);
    }
}

/* A command as main() finds it; the words end with a null. */
static int bay(char **words)
{
    static const struct {
        const char *name;
        int (*carry_out)(int count, char **words);
    } commands[] = {
        { "run", command_run }, { "trace", command_trace }, { "rack", command_rack }, { "sheet", command_sheet }
    };
    int count = 0;
    while (words[count] != NULL) {
        count++;
    }
    for (size_t i = 0; i < sizeof commands / sizeof commands[0]; i++) {
        if (strcmp(words[0], commands[i].name) == 0) {
            trouble_speaker(words[0]);
            return commands[i].carry_out(count - 1, words + 1);
        }
    }
    return TROUBLE_USAGE;
}

/* An image from a few bytes. The first says how long it is, most values the right length; the others are laid over it,
 * each for an equal share. */
static size_t image_make(const uint8_t *recipe, size_t length)
{
    static const size_t lengths[] = { 0, 1, POD_IMAGE_BYTES - 1, POD_IMAGE_BYTES + 1, IMAGE_MOST,
                                      POD_BLOCK_BYTES, POD_IMAGE_BYTES / 2, 4096 };
    enum { RIGHT = 0xE0 };
    size_t bytes = length == 0 ? 0 : POD_IMAGE_BYTES;
    if (length > 0 && recipe[0] >= RIGHT) {
        bytes = lengths[recipe[0] % (sizeof lengths / sizeof lengths[0])];
    }
    size_t shares = length > 1 ? length - 1 : 1;
    size_t share = bytes / shares + 1;
    for (size_t i = 0; i < shares && i * share < bytes; i++) {
        size_t room = bytes - i * share;
        memset(image_room + i * share, length > 1 ? recipe[1 + i] : 0xFF, room < share ? room : share);
    }
    return bytes;
}

static int carry_stream(const struct task *task)
{
    char *ways[][12] = {
        { "run", "../board.img", "in", "--times", "10,1,30", "--answers", "out.answers", "--save", "out.img", NULL },
        { "run", "../board.img", "-", "--times", "1,1,1", "--answers", "-", NULL },
        { "run", "../board.img", "in", NULL },
        { "trace", "../board.img", "in", "--times", "10,1,30", "--vcd", "out.vcd", NULL },
        { "trace", "../board.img", "-", "--times", "200,2,1", "--vcd", "-", NULL },
        { "trace", "../board.img", "in", "--times", "1,1,1", NULL },
        { "run", "../board.img", "in", "--part", "lpc", "--times", "10,1,30", "--answers", "out.answers", NULL },
        { "run", "../board.img", "-", "--part", "lpc", "--straps", "2", "--save", "out.img", NULL },
        { "trace", "../board.img", "in", "--part", "lpc", "--times", "10,1,30", "--vcd", "out.vcd", NULL },
        { "trace", "../board.img", "-", "--part", "lpc", "--times", "1,1,1", NULL },
    };
    must_put("in", task->input->at, task->input->length);
    must_stand_in("in");
    return bay(ways[task->choice % (sizeof ways / sizeof ways[0])]);
}

static int carry_image(const struct task *task)
{
    char *ways[][10] = {
        { "run", "in", "../short.stream", "--times", "10,1,30", "--save", "out.img", NULL },
        { "run", "-", "../short.stream", "--times", "1,1,1", "--save", "-", NULL },
        { "trace", "in", "../short.stream", "--times", "10,1,30", "--vcd", "out.vcd", NULL },
        { "run", "../board.img", "in", NULL },
        { "run", "in", "../short-lpc.stream", "--part", "lpc", "--times", "1,1,1", "--save", "out.img", NULL },
        { "trace", "in", "../short-lpc.stream", "--part", "lpc", "--times", "10,1,30", NULL },
    };
    must_put("in", image_room, image_make(task->input->at, task->input->length));
    must_stand_in("in");
    return bay(ways[task->choice % (sizeof ways / sizeof ways[0])]);
}

static int carry_sheet(const struct task *task)
{
    char *ways[][10] = {
        { "sheet", "read", "in", NULL },
        { "sheet", "read", "-", NULL },
        { "run", "../board.img", "../short.stream", "--sheet", "in", "--answers", "out.answers", NULL },
        { "trace", "../board.img", "../short.stream", "--sheet", "-", NULL },
    };
    must_put("in", task->input->at, task->input->length);
    must_stand_in("in");
    return bay(ways[task->choice % (sizeof ways / sizeof ways[0])]);
}

static int carry_words(const struct task *task)
{
    char *ways[][10] = {
        { "sheet", "write", "out.sheet", "--words", "in", NULL },
        { "sheet", "write", "out.sheet", "--words", "-", NULL },
        { "sheet", "write", "-", "--words", "in", NULL },
    };
    size_t way = task->choice % (sizeof ways / sizeof ways[0]);
    must_put("in", task->input->at, task->input->length);
    must_stand_in("in");
    int status = bay(ways[way]);
    if (status == 0 && way < 2 && !words_agree(task->input, "out.sheet")) {
        return trouble(TROUBLE_SOFTWARE, "the sheet does not hold what the words say");
    }
    return status;
}

/* Mostly the track alone, laid over streams that end where their memory ends; now and then under a rack of one bay. */
static int carry_track(const struct task *task)
{
    static const size_t lengths[] = { 0, 1, 1201, 65536 };
    struct track track;
    must_put("in", task->input->at, task->input->length);
    if (task->choice % 16 == 0) {
        char *words[] = { "rack", "--seconds", "5", "--harness", "in", "bays", NULL };
        if (mkdir("bays", 0700) != 0 || symlink("../../board.img", "bays/bay01.img") != 0 ||
            symlink("../../short.stream", "bays/bay01.stream") != 0) {
            return NO_FILES;
        }
        return bay(words);
    }
    trouble_speaker("track");
    int status = track_read("in", &track);
    size_t samples = lengths[task->choice / 16 % (sizeof lengths / sizeof lengths[0])];
    if (status == 0) {
        uint8_t *stream = must_have(samples * 2);
        memset(stream, 0xFF, samples * 2);
        track_lay(&track, stream, samples);
        free(stream);
    }
    track_free(&track);
    return status;
}

/* One file of a rack: a byte for its place (the low three bits) and for what stands there (the high two: a file, a
 * folder, a link that leads nowhere), two bytes for its length, and its bytes. Gives the length of it all. */
static size_t put_entry(const uint8_t *at, size_t length)
{
    static const char *const places[] = {
        "bays/harness.track", "bays/bay01.img",    "bays/bay01.stream", "bays/bay01.sheet",
        "bays/bay12.img",     "bays/bay12.stream", "bays/bay12.sheet",  "bays/bay02.stream",
    };
    enum { FRONT = 3, FOLDER = 1, LINK = 2 };
    if (length < FRONT) {
        return length;
    }
    const char *place = places[at[0] & 7];
    size_t bytes = (size_t)at[1] | (size_t)at[2] << 8;
    bytes = bytes < length - FRONT ? bytes : length - FRONT;
    (void)remove(place);
    if (at[0] >> 6 == FOLDER) {
        (void)mkdir(place, 0700);
    } else if (at[0] >> 6 == LINK) {
        (void)symlink("nowhere", place);
    } else if (strstr(place, ".img") != NULL) {
        must_put(place, image_room, image_make(at + FRONT, bytes));
    } else {
        must_put(place, at + FRONT, bytes);
    }
    return FRONT + bytes;
}

static int carry_rack(const struct task *task)
{
    char *ways[][8] = {
        { "rack", "--seconds", "5", "bays", "--save", "home", NULL },
        { "rack", "--seconds", "5", "bays", NULL },
        { "rack", "--seconds", "5", "--part", "lpc", "bays", NULL },
    };
    if (mkdir("bays", 0700) != 0 || mkdir("home", 0700) != 0) {
        return NO_FILES;
    }
    for (size_t at = 0; at < task->input->length;) {
        at += put_entry(task->input->at + at, task->input->length - at);
    }
    return bay(ways[task->choice % (sizeof ways / sizeof ways[0])]);
}

/* A server over a line, with what bay serve does behind it. */
static int carry_serprog(const struct task *task)
{
    static const struct settings settings[] = { { POD_PART_FWH, 0, 10, 1, 30 }, { POD_PART_FWH, 0, 1, 1, 1 },
                                                { POD_PART_FWH, 15, 200, 2, 30 }, { POD_PART_LPC, 0, 10, 1, 30 },
                                                { POD_PART_LPC, 0, 1, 1, 1 }, { POD_PART_LPC, 3, 200, 2, 30 } };
    static struct link link;
    static struct serprog serprog;
    struct bench bench = { .image = image_room, .image_length = POD_IMAGE_BYTES, .idle = POD_SAMPLE_IDLE };
    int stop[2];
    memset(image_room, 0xFF, POD_IMAGE_BYTES);
    bench_power_up(&bench, &settings[task->choice / 4 % (sizeof settings / sizeof settings[0])]);
    if (pipe(stop) != 0 || fcntl(task->line, F_SETFL, O_NONBLOCK) != 0) {
        return NO_FILES;
    }
    link.client = task->line;
    link.stop = stop[0];
    link.idle = client_manner(task->choice) == MANNER_SILENT ? 20 : 5000;
    link.until = milliseconds() + 1000;
    serprog.link = &link;
    serprog.bench = &bench;
    serprog.rest = task->choice % 2 == 0 ? 0 : (uint64_t)100 * POD_CLOCKS_PER_MICROSECOND;
    serprog_serve(&serprog);
    (void)close(task->line);
    bench_settle(&bench);
    bool ready = (pod_status(bench.device) & POD_STATUS_READY) != 0;
    bool sound = bench.refusal == POD_DONE && ready && link.why != NULL && link.why != link_ended;
    if (!sound || serprog.length > SERPROG_BUFFER || link.in_at > link.in_end || link.out_end > LINK_ROOM) {
        return trouble(TROUBLE_SOFTWARE, "the server is not as it should be: refusal %u, %s", (unsigned)bench.refusal,
                       link.why != NULL ? link.why : "no end");
    }
    return 0;
}

const struct kind kinds[KINDS] = {
    { "stream", false, { group_sample, false, piece_frame }, mend_stream, carry_stream },
    { "image", false, { group_byte, false, NULL }, NULL, carry_image },
    { "sheet", false, { group_byte, false, piece_sheet }, mend_sheet, carry_sheet },
    { "words", false, { group_line, true, piece_words }, NULL, carry_words },
    { "track", false, { group_line, true, piece_pull }, NULL, carry_track },
    { "rack", false, { group_entry, false, piece_entry }, NULL, carry_rack },
    { "serprog", true, { group_request, false, piece_request }, mend_requests, carry_serprog },
};

/* A stream with an erase, a program and reads, for those kinds that spoil something else. */
static size_t short_stream(uint8_t *stream, unsigned part)
{
    const uint32_t erased = array_address(part, 0, 0x30000), programmed = array_address(part, 0, 0x50000);
    const struct frame frames[] = {
        frame_write(part, 0, lock_address(part, 0, 3), 0),
        frame_write(part, 0, erased, COMMAND_ERASE),
        frame_write(part, 0, erased, COMMAND_RESUME),
        frame_read(part, 0, erased),
        frame_write(part, 0, lock_address(part, 0, 5), 0),
        frame_write(part, 0, programmed, COMMAND_PROGRAM),
        frame_write(part, 0, programmed, 0x5A),
        frame_write(part, 0, programmed, COMMAND_ARRAY),
        frame_read(part, 0, inputs_address(part, 0)),
    };
    enum { REST = 400 };
    size_t at = 0;
    for (size_t i = 0; i < sizeof frames / sizeof frames[0]; i++) {
        uint16_t samples[FRAME_MOST_CLOCKS];
        size_t clocks = frame_lay(&frames[i], POD_SAMPLE_IDLE, samples);
        for (size_t clock = 0; clock < clocks + REST; clock++) {
            sample_put(stream, at++, clock < clocks ? samples[clock] : POD_SAMPLE_IDLE);
        }
    }
    return at * 2;
}

bool common_files(void)
{
    memset(image_room, 0xA5, POD_IMAGE_BYTES);
    return file_put("board.img", image_room, POD_IMAGE_BYTES) &&
           file_put("short.stream", image_room, short_stream(image_room, POD_PART_FWH)) &&
           file_put("short-lpc.stream", image_room, short_stream(image_room, POD_PART_LPC));
}
