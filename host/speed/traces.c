/* Reading a file of traces. */
#include "speed/traces.h"

#include "speed/room.h"

#include <stdio.h>
#include <stdlib.h>

static uint8_t *read_file(const char *path, size_t *length)
{
    FILE *file = fopen(path, "rb");
    if (file == NULL) {
        give_up("expected traces of diff --record, found no file ", path);
    }
    size_t room = 1 << 20;
    uint8_t *bytes = room_for(room);
    *length = 0;
    for (size_t got; (got = fread(bytes + *length, 1, room - *length, file)) != 0;) {
        *length += got;
        if (*length == room) {
            room *= 2;
            bytes = more_room(bytes, room);
        }
    }
    fclose(file);
    return bytes;
}

/* Adds the trace at the front of some bytes where it is of this part: a byte with its part, a bay sheet, the number of
 * samples in four bytes, and the samples. Gives its length, or 0 where there is none. */
static size_t take_trace(const uint8_t *bytes, size_t length, uint32_t part, struct row *row)
{
    const size_t head = 1 + POD_SHEET_BYTES + 4;
    if (length < head) {
        return 0;
    }
    const struct pod_sheet sheet = pod_sheet_read(bytes + 1, POD_SHEET_BYTES);
    size_t count = 0;
    for (size_t i = head; i > 1 + POD_SHEET_BYTES; i--) {
        count = count << 8 | bytes[i - 1];
    }
    if (bytes[0] > POD_PART_LPC || sheet.number != POD_DONE || count > MOST_SAMPLES || length - head < 2 * count) {
        return 0;
    }
    const struct pod_times times = { (uint16_t)sheet.program, (uint16_t)sheet.slice, (uint16_t)sheet.pause };
    if (bytes[0] == part) {
        row_add(row, stream_of(part, sheet.straps, times, bytes + head, count));
    }
    return head + 2 * count;
}

struct row traces_read(const char *path, uint32_t part)
{
    const bool lpc = part == POD_PART_LPC;
    size_t length = 0;
    uint8_t *bytes = read_file(path, &length);
    struct row row = { .name = lpc ? "the differential test's mix, LPC" : "the differential test's mix", .again = lpc };
    for (size_t at = 0, taken; at < length; at += taken) {
        taken = take_trace(bytes + at, length - at, part, &row);
        if (taken == 0) {
            give_up("expected traces of diff --record, found something else in ", path);
        }
    }
    free(bytes);
    if (row.count == 0) {
        give_up("expected traces of diff --record, found none of a part in ", path);
    }
    return row;
}
