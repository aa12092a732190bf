/* Writing the waveform. Every wire is one bit wide, since sigrok cannot read wider ones. */
#include "bay/vcd.h"

#include "bay/words.h"

#include <stdbool.h>
#include <string.h>

enum {
    CLK = 0,
    FRAME = 1,
    HOST = 2,
    DEVICE = 6,
    DRIVES = 10,
    RP = 11,
    INIT = 12,
    TBL = 13,
    WP = 14,
    VOLTAGE = 15,
    STATUS = 17,
    STATUS_LOW = 1,
    STATUS_HIGH = 7,
    FIRST_SIGN = '!'
};

static const char *const names[STATUS] = {
    "clk",     "frame",   "host0",         "host1", "host2", "host3", "device0", "device1",  "device2",
    "device3", "device_drives", "RP", "INIT",  "TBL",   "WP",    "voltage0", "voltage1",
};

static const char *wire_name(unsigned wire)
{
    return wire < STATUS ? names[wire] : status_bit_name(STATUS_HIGH - (wire - STATUS));
}

/* When a clock begins, in nanoseconds: 33 clocks are a microsecond. Its second half has clk high. */
static unsigned long long start_of(uint64_t clock)
{
    return clock * 1000U / POD_CLOCKS_PER_MICROSECOND;
}

void vcd_begin(struct vcd *vcd)
{
    *vcd = (struct vcd){ .clock = 0 };
    text_add(&vcd->text, "$comment 33 clocks are a microsecond; clk rises in mid-clock; status as after the clock $end\n"
                         "$timescale 1 ns $end\n"
                         "$scope module bay $end\n");
    for (unsigned wire = 0; wire < VCD_WIRES; wire++) {
        text_add(&vcd->text, "$var wire 1 %c %s $end\n", (char)(FIRST_SIGN + wire), wire_name(wire));
    }
    text_add(&vcd->text, "$upscope $end\n"
                         "$enddefinitions $end\n");
}

static char level(unsigned bits, unsigned bit)
{
    return (bits >> bit & 1U) != 0 ? '1' : '0';
}

static void set(struct vcd *vcd, unsigned wire, char sign)
{
    if (vcd->levels[wire] != sign) {
        vcd->levels[wire] = sign;
        text_add(&vcd->text, "%c%c\n", sign, (char)(FIRST_SIGN + wire));
    }
}

void vcd_add(struct vcd *vcd, const struct seen *seen, uint32_t status)
{
    unsigned sample = seen->sample;
    bool driven = (seen->answer & POD_ANSWER_DRIVEN) != 0;
    text_add(&vcd->text, "#%llu\n", start_of(vcd->clock));
    set(vcd, CLK, '0');
    set(vcd, FRAME, level(sample, 4));
    for (unsigned line = 0; line < 4; line++) {
        set(vcd, HOST + line, level(sample, line));
        char sign = 'z';
        if (driven) {
            sign = level(seen->answer, line);
        }
        set(vcd, DEVICE + line, sign);
    }
    set(vcd, DRIVES, level(seen->answer, 4));
    set(vcd, RP, level(sample, 5));
    set(vcd, INIT, level(sample, 6));
    set(vcd, TBL, level(sample, 7));
    set(vcd, WP, level(sample, 8));
    set(vcd, VOLTAGE, level(sample, POD_SAMPLE_VOLTAGE_SHIFT));
    set(vcd, VOLTAGE + 1, level(sample, POD_SAMPLE_VOLTAGE_SHIFT + 1));
    for (unsigned bit = STATUS_LOW; bit <= STATUS_HIGH; bit++) {
        set(vcd, STATUS + STATUS_HIGH - bit, level(status, bit));
    }
    text_add(&vcd->text, "#%llu\n", start_of(vcd->clock) + 15);
    set(vcd, CLK, '1');
    vcd->clock++;
}

void vcd_end(struct vcd *vcd)
{
    text_add(&vcd->text, "#%llu\n", start_of(vcd->clock));
}
