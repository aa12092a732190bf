/* Reading and writing bay sheets. */
#include "case/sheets.h"

#include <string.h>

static uint32_t write_sheet(uint8_t *buffer, size_t room, const struct power *power)
{
    memset(buffer, UNWRITTEN, SPARE);
    return pod_sheet_write(buffer, room, power->straps, power->program, power->slice, power->pause);
}

static void check_read(const struct check *check, struct judge *judge)
{
    const struct power *power = &check->wish.power;
    const struct pod_sheet sheet = pod_sheet_read(check->wish.bytes, check->wish.byte_count);
    judge_same(judge, check->line, "number of the sheet", POD_DONE, sheet.number);
    judge_same(judge, check->line, "straps", power->straps, sheet.straps);
    judge_same(judge, check->line, "program time", power->program, sheet.program);
    judge_same(judge, check->line, "slice time", power->slice, sheet.slice);
    judge_same(judge, check->line, "pause time", power->pause, sheet.pause);
}

static void check_write(const struct check *check, struct judge *judge)
{
    const struct wish *wish = &check->wish;
    uint8_t buffer[SPARE];
    judge_same(judge, check->line, "number of the sheet", POD_DONE, write_sheet(buffer, sizeof buffer, &wish->power));
    for (size_t i = 0; i < sizeof buffer; i++) {
        bool inside = i < wish->byte_count;
        judge_same(judge, check->line, inside ? "byte of the sheet" : "byte past the sheet",
                   inside ? wish->bytes[i] : UNWRITTEN, buffer[i]);
    }
    judge_same(judge, check->line, "number with just room enough", POD_DONE,
               write_sheet(buffer, POD_SHEET_BYTES, &wish->power));
    judge_holds(judge, check->line, memcmp(buffer, wish->bytes, POD_SHEET_BYTES) == 0,
                "the same sheet where there is just room enough", "another");
}

void sheet_check(const struct check *check, struct judge *judge)
{
    if (check->wish.call == CALL_SHEET_READ) {
        check_read(check, judge);
    } else {
        check_write(check, judge);
    }
}

void sheet_refused(const struct check *check, struct judge *judge)
{
    const struct wish *wish = &check->wish;
    if (wish->call == CALL_SHEET_READ) {
        const struct pod_sheet sheet = pod_sheet_read(wish->bytes, wish->byte_count);
        judge_same(judge, check->line, "number of the sheet", check->value, sheet.number);
        judge_same(judge, check->line, "the other numbers", 0,
                   sheet.straps | sheet.program | sheet.slice | sheet.pause);
        return;
    }
    uint8_t buffer[SPARE];
    uint32_t room = wish->room_said ? wish->room : POD_SHEET_BYTES;
    judge_same(judge, check->line, "number of the sheet", check->value, write_sheet(buffer, room, &wish->power));
    judge_unwritten(judge, check->line, buffer, sizeof buffer);
}
