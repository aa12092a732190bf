/* The file that gets the traces that went through run. */
#include "diff/record.h"

#include "diff/trace.h"
#include "model.h"
#include "pod.h"

#include <stddef.h>
#include <stdint.h>
#include <stdio.h>

static FILE *record; /* null where nothing is recorded */

bool record_open(const char *name)
{
    record = fopen(name, "wb");
    return record != NULL;
}

void record_trace(void)
{
    if (record == NULL) {
        return;
    }
    uint8_t head[1 + POD_SHEET_BYTES + 4] = { (uint8_t)trace.part };
    (void)model_sheet_write(head + 1, POD_SHEET_BYTES, trace.straps, trace.times);
    for (unsigned i = 0; i < 4; i++) {
        head[1 + POD_SHEET_BYTES + i] = (uint8_t)(trace.done >> 8 * i);
    }
    fwrite(head, 1, sizeof head, record);
    fwrite(trace.stream, 2, trace.done, record);
}

bool record_close(void)
{
    if (record == NULL) {
        return true;
    }
    const bool written = ferror(record) == 0;
    return fclose(record) == 0 && written;
}
