/* Requests of a serprog client, turned into frames and rests on the bench. */
#include "bay/serprog.h"

#include "bus/addresses.h"
#include "bus/pins.h"

#include <string.h>

enum {
    ACK = 0x06,
    NAK = 0x15,
    BUS_LPC = 0x02,
    BUS_FWH = 0x04,
    OP_WRITE_BYTE = 0x0C,
    OP_WRITE_BYTES = 0x0D,
    OP_DELAY = 0x0E,
    PARAMETERS_MOST = 6,
    MAP_BYTES = 32,
    NAME_BYTES = 16
};

static uint32_t number24(const uint8_t *three)
{
    return (uint32_t)three[0] | (uint32_t)three[1] << 8 | (uint32_t)three[2] << 16;
}

/* A client sends 24 bits of an address in the top 16 megabytes; the frame's bits above them, as many as the part has,
 * are all ones. Behind the last of these addresses the first one follows. */
static uint32_t frame_address(const struct bench *bench, const uint8_t *three, uint32_t further)
{
    return (address_most(bench->device.part) & ~0xFFFFFFU) | ((number24(three) + further) & 0xFFFFFFU);
}

static void put24(uint8_t *three, uint32_t number)
{
    three[0] = (uint8_t)(number & 0xFF);
    three[1] = (uint8_t)(number >> 8 & 0xFF);
    three[2] = (uint8_t)(number >> 16 & 0xFF);
}

static bool give_byte(struct serprog *s, uint8_t byte)
{
    return link_give(s->link, &byte, 1);
}

/* ACK and what was asked for. */
static bool give_answer(struct serprog *s, const uint8_t *answer, size_t length)
{
    return give_byte(s, ACK) && link_give(s->link, answer, length);
}

static bool nop(struct serprog *s, const uint8_t *p)
{
    (void)p;
    return give_byte(s, ACK);
}

static bool sync_nop(struct serprog *s, const uint8_t *p)
{
    (void)p;
    return give_byte(s, NAK) && give_byte(s, ACK);
}

static bool ask_version(struct serprog *s, const uint8_t *p)
{
    static const uint8_t version[] = { 1, 0 };
    (void)p;
    return give_answer(s, version, sizeof version);
}

static bool ask_map(struct serprog *s, const uint8_t *p);

static bool ask_name(struct serprog *s, const uint8_t *p)
{
    static const uint8_t names[][NAME_BYTES] = {
        [POD_PART_FWH] = "bay M50FW080",
        [POD_PART_LPC] = "bay M50LPW080",
    };
    (void)p;
    return give_answer(s, names[s->bench->device.part], NAME_BYTES);
}

static bool ask_line_buffer(struct serprog *s, const uint8_t *p)
{
    static const uint8_t no_limit[] = { 0xFF, 0xFF };
    (void)p;
    return give_answer(s, no_limit, sizeof no_limit);
}

/* The bus of the part in the socket. */
static uint8_t bus_of(const struct serprog *s)
{
    return s->bench->device.part == POD_PART_LPC ? BUS_LPC : BUS_FWH;
}

static bool ask_bus(struct serprog *s, const uint8_t *p)
{
    const uint8_t bus = bus_of(s);
    (void)p;
    return give_answer(s, &bus, 1);
}

static bool ask_operations(struct serprog *s, const uint8_t *p)
{
    static const uint8_t room[] = { SERPROG_BUFFER & 0xFF, SERPROG_BUFFER >> 8 };
    (void)p;
    return give_answer(s, room, sizeof room);
}

static bool ask_write_most(struct serprog *s, const uint8_t *p)
{
    uint8_t most[3];
    (void)p;
    put24(most, SERPROG_WRITE_MOST);
    return give_answer(s, most, sizeof most);
}

static bool ask_read_most(struct serprog *s, const uint8_t *p)
{
    uint8_t most[3];
    (void)p;
    put24(most, SERPROG_READ_MOST);
    return give_answer(s, most, sizeof most);
}

static bool choose_bus(struct serprog *s, const uint8_t *p)
{
    return give_byte(s, (p[0] & bus_of(s)) != 0 ? ACK : NAK);
}

static bool read_byte(struct serprog *s, const uint8_t *p)
{
    bench_rest(s->bench, s->rest);
    uint8_t byte = bench_read(s->bench, frame_address(s->bench, p, 0));
    return give_answer(s, &byte, 1);
}

static bool read_bytes(struct serprog *s, const uint8_t *p)
{
    uint32_t length = number24(p + 3);
    if (length == 0 || length > SERPROG_READ_MOST) {
        return give_byte(s, NAK);
    }
    bench_rest(s->bench, s->rest);
    bool holds = give_byte(s, ACK);
    for (uint32_t i = 0; i < length && holds; i++) {
        holds = give_byte(s, bench_read(s->bench, frame_address(s->bench, p, i)));
    }
    return holds;
}

static bool begin_operations(struct serprog *s, const uint8_t *p)
{
    (void)p;
    s->length = 0;
    return give_byte(s, ACK);
}

/* Lays an operation by: its code, its parameters, and room for data behind them. Null where the buffer is full. */
static uint8_t *lay_by(struct serprog *s, uint8_t code, const uint8_t *p, size_t parameters, size_t data)
{
    size_t length = 1 + parameters + data;
    if (length > SERPROG_BUFFER - s->length) {
        return NULL;
    }
    uint8_t *at = s->operations + s->length;
    at[0] = code;
    memcpy(at + 1, p, parameters);
    s->length += length;
    return at + 1 + parameters;
}

static bool write_byte(struct serprog *s, const uint8_t *p)
{
    return give_byte(s, lay_by(s, OP_WRITE_BYTE, p, 4, 0) != NULL ? ACK : NAK);
}

/* Takes bytes that there is no room for. */
static bool pass_over(struct link *link, uint32_t length)
{
    uint8_t byte = 0;
    bool holds = true;
    for (uint32_t i = 0; i < length && holds; i++) {
        holds = link_take(link, &byte, 1);
    }
    return holds;
}

static bool write_bytes(struct serprog *s, const uint8_t *p)
{
    uint32_t length = number24(p);
    if (length == 0) {
        return give_byte(s, NAK);
    }
    if (length > SERPROG_WRITE_MOST) {
        s->link->why = "the client wrote more bytes at once than it was told";
        return false;
    }
    uint8_t *data = lay_by(s, OP_WRITE_BYTES, p, 6, length);
    if (data == NULL) {
        return pass_over(s->link, length) && give_byte(s, NAK);
    }
    return link_take(s->link, data, length) && give_byte(s, ACK);
}

static bool delay(struct serprog *s, const uint8_t *p)
{
    return give_byte(s, lay_by(s, OP_DELAY, p, 4, 0) != NULL ? ACK : NAK);
}

/* Carries out one operation that was laid by; gives its length. */
static size_t carry_out(struct bench *bench, const uint8_t *at)
{
    const uint8_t *p = at + 1;
    if (at[0] == OP_WRITE_BYTE) {
        bench_write(bench, frame_address(bench, p, 0), p[3]);
        return 5;
    }
    if (at[0] == OP_DELAY) {
        bench_rest(bench, (uint64_t)(number24(p) | (uint32_t)p[3] << 24) * POD_CLOCKS_PER_MICROSECOND);
        return 5;
    }
    uint32_t length = number24(p);
    for (uint32_t i = 0; i < length; i++) {
        bench_write(bench, frame_address(bench, p + 3, i), p[6 + i]);
    }
    return 7 + length;
}

static bool execute(struct serprog *s, const uint8_t *p)
{
    (void)p;
    bench_rest(s->bench, s->rest);
    for (size_t at = 0; at < s->length;) {
        at += carry_out(s->bench, s->operations + at);
    }
    s->length = 0;
    return give_byte(s, ACK);
}

/* Every request that is known: its code, how many parameter bytes follow, and what is done with it. */
static const struct request {
    uint8_t code;
    uint8_t parameters;
    bool (*serve)(struct serprog *s, const uint8_t *p);
} requests[] = {
    { 0x00, 0, nop },
    { 0x01, 0, ask_version },
    { 0x02, 0, ask_map },
    { 0x03, 0, ask_name },
    { 0x04, 0, ask_line_buffer },
    { 0x05, 0, ask_bus },
    { 0x07, 0, ask_operations },
    { 0x08, 0, ask_write_most },
    { 0x09, 3, read_byte },
    { 0x0A, 6, read_bytes },
    { 0x0B, 0, begin_operations },
    { OP_WRITE_BYTE, 4, write_byte },
    { OP_WRITE_BYTES, 6, write_bytes },
    { OP_DELAY, 4, delay },
    { 0x0F, 0, execute },
    { 0x10, 0, sync_nop },
    { 0x11, 0, ask_read_most },
    { 0x12, 1, choose_bus },
};
enum { REQUESTS = sizeof requests / sizeof requests[0] };

static bool ask_map(struct serprog *s, const uint8_t *p)
{
    uint8_t map[MAP_BYTES] = { 0 };
    (void)p;
    for (size_t i = 0; i < REQUESTS; i++) {
        unsigned code = requests[i].code;
        map[code / 8] = (uint8_t)(map[code / 8] | 1U << code % 8);
    }
    return give_answer(s, map, sizeof map);
}

static const struct request *find(uint8_t code)
{
    for (size_t i = 0; i < REQUESTS; i++) {
        if (requests[i].code == code) {
            return &requests[i];
        }
    }
    return NULL;
}

/* One request. False where the line has ended or is to end. */
static bool serve_one(struct serprog *s)
{
    uint8_t code = 0;
    uint8_t parameters[PARAMETERS_MOST] = { 0 };
    if (!link_take(s->link, &code, 1)) {
        return false;
    }
    const struct request *request = find(code);
    if (request == NULL) {
        /* what follows it cannot be told apart from requests, so no more is read */
        (void)(give_byte(s, NAK) && link_flush(s->link));
        s->link->why = "the client sent a request that is not known";
        return false;
    }
    if (!link_take(s->link, parameters, request->parameters)) {
        return false;
    }
    s->requests++;
    return request->serve(s, parameters) && s->bench->refusal == POD_DONE;
}

void serprog_serve(struct serprog *serprog)
{
    serprog->length = 0;
    while (serve_one(serprog)) {
    }
}
