/* A scenario: a file of traffic, and of what is to be found in its course.
 *
 * A file begins with a comment line that tells the rule it shows. The traffic is written as bus/script.h says: its part
 * and straps are those of the power-up as well, and it states what the part is to answer. Besides there are these
 * lines, where a PLACE is one in the image:
 *
 *   times P S U                             of the power-up (10 3906 30 when not said); before any sample
 *   image fill XX | image at PLACE XX..     the image lent (FFh when not said); before any sample
 *   answers = XX..                          the answers to the last samples
 *   settle LIMIT = NUMBER COUNT             with the idle sample
 *   set times P S U = NUMBER
 *   expect status XX | marks XXXX | samples N | byte PLACE XX | fill PLACE LENGTH XX     at this place of the scenario
 *   expect number N                         of the run; when it is a refusal the scenario is run but not stepped
 *   view BLOCK [options] = front | page | image PLACE
 *       unsound, image LENGTH, page LENGTH, soiled PLACE
 *   sheet read XX.. = S P S U | sheet write S P S U = XX..
 *   refuse NUMBER step|clock|settle [unsound] [image LENGTH] [class3] [frame low] [rp low] [init low] [limit N]
 *   refuse NUMBER set times P S U [unsound]
 *   refuse NUMBER power|run [part N] [straps N] [times P S U] [image LENGTH] [stream LENGTH] [room LENGTH]
 *       [class3 SAMPLE]
 *   refuse NUMBER sheet read XX.. | refuse NUMBER sheet write [straps N] [times P S U] [room LENGTH]
 */
#ifndef CASE_SCENARIO_H
#define CASE_SCENARIO_H

#include "bus/script.h"
#include "case/judge.h"
#include "case/wish.h"

#include <stdbool.h>
#include <stdint.h>

enum check_kind {
    CHECK_STATUS,
    CHECK_MARKS,
    CHECK_SAMPLES,
    CHECK_FILL,
    CHECK_SETTLE,
    CHECK_SET_TIMES,
    CHECK_SHEET,
    CHECK_VIEW,
    CHECK_REFUSAL
};

/* Something to be looked at, or done apart from the samples, after `at` samples. */
struct check {
    enum check_kind kind;
    uint32_t at;
    unsigned line;
    bool by_run;       /* run can come to this place too */
    uint16_t sample;   /* the idle sample there */
    uint32_t value;    /* what is expected: a register, a count, a byte or a number */
    uint32_t place;    /* of a fill */
    uint32_t length;
    uint32_t limit;    /* of a settle, with the samples that it takes in and whether they are laid as well */
    uint32_t count;
    bool laid;
    struct power times; /* that are set; part and straps are not meant */
    struct wish wish;  /* of a sheet, a view or a refusal */
};

struct scenario {
    struct script script;
    struct power power;
    uint8_t *image; /* as it is lent, with spare bytes behind it */
    struct check *checks;
    size_t check_count;
    size_t check_room;
    uint32_t number;    /* of the run */
    uint32_t run_until; /* run can follow the scenario up to here */
    bool run_stopped;   /* and not to its end */
    bool stated;        /* the text expects something */
    unsigned lines;     /* of the file */
};

/* Reads a file; the judge hears of what cannot be understood. To be freed in any case. */
void scenario_read(struct scenario *scenario, const char *path, struct judge *judge);
void scenario_free(struct scenario *scenario);

#endif
