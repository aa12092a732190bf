/* Bits turned, bytes put in, left out, repeated and brought over from another seed. */
#include "fuzz/spoil.h"

#include <stdio.h>
#include <string.h>

enum { CHANGES_MOST = 6, SHORT_RUN = 16, NUMBER_ROOM = 24 };

uint64_t draw(struct draws *draws)
{
    draws->state += 0x9E3779B97F4A7C15U;
    uint64_t z = draws->state;
    z = (z ^ z >> 30) * 0xBF58476D1CE4E5B9U;
    z = (z ^ z >> 27) * 0x94D049BB133111EBU;
    return z ^ z >> 31;
}

size_t draw_below(struct draws *draws, size_t bound)
{
    return bound == 0 ? 0 : (size_t)(draw(draws) % bound);
}

bool draw_one_in(struct draws *draws, size_t bound)
{
    return draw_below(draws, bound) == 0;
}

uint32_t draw_border(struct draws *draws)
{
    static const uint32_t borders[] = {
        0,     1,    2,    3,    4,     15,    16,    30,    31,    200,    201,     255,       256,       UINT32_MAX,
        4095,  4096, 4097, 8191, 32767, 32768, 39062, 39063, 65535, 131072, 1048576, INT32_MAX, 16777215U, 16777216U,
        65536, 65537,
    };
    uint32_t border = borders[draw_below(draws, sizeof borders / sizeof borders[0])];
    return draw_one_in(draws, 4) ? (uint32_t)draw(draws) : border;
}

uint64_t input_sum(const struct input *input)
{
    struct draws sum = { input->length };
    uint64_t all = draw(&sum);
    for (size_t i = 0; i < input->length; i++) {
        all = (all ^ input->at[i]) * 0x100000001B3U;
    }
    sum.state = all;
    return draw(&sum);
}

/* A stretch of an input, mostly whole groups long. */
struct stretch {
    size_t at;
    size_t length;
};

/* Finds where groups begin, and behind the last of them the end. Gives how many there are. */
static size_t find_groups(const struct input *input, const struct style *style, bool bytes, size_t *begin)
{
    size_t count = 0;
    for (size_t at = 0; at < input->length; count++) {
        begin[count] = at;
        at += bytes ? 1 : style->group(input->at + at, input->length - at);
    }
    begin[count] = input->length;
    return count;
}

static struct stretch draw_stretch(struct draws *draws, const struct input *input, const struct style *style)
{
    static size_t begin[INPUT_MOST + 1];
    size_t count = find_groups(input, style, draw_one_in(draws, 8), begin);
    size_t from = draw_below(draws, count);
    size_t most = count - from;
    if (!draw_one_in(draws, 4) && most > SHORT_RUN) {
        most = SHORT_RUN;
    }
    size_t groups = count == 0 ? 0 : 1 + draw_below(draws, draw_one_in(draws, 2) ? 1 : most);
    return (struct stretch){ begin[from], begin[from + groups] - begin[from] };
}

/* Makes room for more bytes; what stands there is moved up, or falls off the end of the longest input. */
static size_t open_gap(struct input *input, size_t at, size_t length)
{
    length = length < INPUT_MOST - at ? length : INPUT_MOST - at;
    size_t behind = input->length - at;
    size_t most = INPUT_MOST - at - length;
    behind = behind < most ? behind : most;
    memmove(input->at + at + length, input->at + at, behind);
    input->length = at + length + behind;
    return length;
}

enum where { IN_FRONT, IN_PLACE, OVER, WHERES };

static void leave_out(struct input *input, struct stretch stretch)
{
    size_t behind = stretch.at + stretch.length;
    memmove(input->at + stretch.at, input->at + behind, input->length - behind);
    input->length -= stretch.length;
}

/* Puts bytes in front of a stretch, in its place, or over what stands there; then the length stays. */
static void put(struct input *input, const uint8_t *bytes, size_t length, struct stretch to, enum where where)
{
    size_t room = input->length - to.at;
    if (where == IN_PLACE) {
        leave_out(input, to);
    }
    if (where == OVER) {
        length = length < room ? length : room;
    } else {
        length = open_gap(input, to.at, length);
    }
    memcpy(input->at + to.at, bytes, length);
}

static void turn_bit(struct input *input, struct draws *draws)
{
    size_t at = draw_below(draws, input->length);
    input->at[at] = (uint8_t)(input->at[at] ^ 1U << draw_below(draws, 8));
}

static void set_byte(struct input *input, struct draws *draws)
{
    static const uint8_t bytes[] = { 0, 1, 9, 10, 13, 32, '#', '-', '0', '9', '%', 0x7F, 0x80, 0xFE, 0xFF };
    size_t which = draw_below(draws, sizeof bytes + 2);
    input->at[draw_below(draws, input->length)] = which < sizeof bytes ? bytes[which] : (uint8_t)draw(draws);
}

/* A number at a border, the lowest byte first, one to four bytes long. */
static void set_number(struct input *input, struct draws *draws)
{
    uint32_t number = draw_border(draws);
    size_t at = draw_below(draws, input->length);
    size_t length = 1 + draw_below(draws, 4);
    for (size_t i = 0; i < length && at + i < input->length; i++) {
        input->at[at + i] = (uint8_t)(number >> 8 * i);
    }
}

static void insert_bytes(struct input *input, const struct style *style, struct draws *draws)
{
    uint8_t bytes[SHORT_RUN];
    size_t length = 1 + draw_below(draws, SHORT_RUN);
    bool same = draw_one_in(draws, 2);
    uint8_t first = (uint8_t)draw(draws);
    for (size_t i = 0; i < length; i++) {
        bytes[i] = same ? first : (uint8_t)draw(draws);
    }
    put(input, bytes, length, draw_stretch(draws, input, style), IN_FRONT);
}

/* A stretch once more in front of itself, a few times or very often. */
static void repeat(struct input *input, const struct style *style, struct draws *draws)
{
    static uint8_t kept[INPUT_MOST];
    struct stretch stretch = draw_stretch(draws, input, style);
    size_t times = draw_one_in(draws, 16) ? 1 + draw_below(draws, 4000) : 1 + draw_below(draws, 4);
    memcpy(kept, input->at + stretch.at, stretch.length);
    for (size_t i = 0; i < times && input->length + stretch.length <= INPUT_MOST; i++) {
        put(input, kept, stretch.length, stretch, IN_FRONT);
    }
}

/* A stretch of the input or of another one, brought to another place. */
static void bring(struct input *input, const struct input *from, const struct style *style, struct draws *draws)
{
    static uint8_t kept[INPUT_MOST];
    struct stretch stretch = draw_stretch(draws, from, style);
    memcpy(kept, from->at + stretch.at, stretch.length);
    put(input, kept, stretch.length, draw_stretch(draws, input, style), (enum where)draw_below(draws, WHERES));
}

/* The front of the input and the back of another one. */
static void splice(struct input *input, const struct input *other, const struct style *style, struct draws *draws)
{
    size_t at = draw_stretch(draws, input, style).at;
    size_t from = draw_one_in(draws, 2) ? at : draw_stretch(draws, other, style).at;
    size_t length = from < other->length ? other->length - from : 0;
    length = length < INPUT_MOST - at ? length : INPUT_MOST - at;
    memcpy(input->at + at, other->at + (length == 0 ? 0 : from), length);
    input->length = at + length;
}

static void bring_piece(struct input *input, const struct style *style, struct draws *draws)
{
    uint8_t piece[PIECE_MOST];
    size_t length = style->piece(draws, piece);
    put(input, piece, length, draw_stretch(draws, input, style), (enum where)draw_below(draws, WHERES));
}

static bool is_digit(uint8_t byte)
{
    return byte >= '0' && byte <= '9';
}

/* Another number in place of one that is written out. */
static void change_number(struct input *input, struct draws *draws)
{
    size_t at = draw_below(draws, input->length);
    while (at < input->length && !is_digit(input->at[at])) {
        at++;
    }
    struct stretch digits = { at, 0 };
    while (at < input->length && is_digit(input->at[at])) {
        at++;
    }
    digits.length = at - digits.at;
    leave_out(input, digits);
    char number[NUMBER_ROOM];
    int length = snprintf(number, sizeof number, draw_one_in(draws, 8) ? "000%u0000000000" : "%u", draw_border(draws));
    if (length > 0) {
        put(input, (const uint8_t *)number, strlen(number), digits, IN_FRONT);
    }
}

static void change(struct input *input, const struct input *other, const struct style *style, struct draws *draws)
{
    enum { WAYS = 16 };
    size_t way = draw_below(draws, WAYS);
    if (style->piece != NULL && way >= 12) {
        bring_piece(input, style, draws);
    } else if (style->text && way >= 9) {
        change_number(input, draws);
    } else if (input->length == 0 || way == 0) {
        insert_bytes(input, style, draws);
    } else if (way == 1) {
        leave_out(input, draw_stretch(draws, input, style));
    } else if (way == 2) {
        repeat(input, style, draws);
    } else if (way == 3) {
        splice(input, other, style, draws);
    } else if (way == 4) {
        bring(input, draw_one_in(draws, 2) ? input : other, style, draws);
    } else if (way == 5) {
        set_number(input, draws);
    } else if (way <= 8) {
        set_byte(input, draws);
    } else {
        turn_bit(input, draws);
    }
}

void spoil(struct input *input, const struct input *other, const struct style *style, struct draws *draws)
{
    size_t changes = 1 + draw_below(draws, 1 + draw_below(draws, CHANGES_MOST));
    for (size_t i = 0; i < changes; i++) {
        change(input, other, style, draws);
    }
    if (draw_one_in(draws, 32)) {
        input->length = draw_below(draws, input->length + 1);
    }
}
