/* Timing streams and printing what it took. */
#include "speed/tables.h"

#include "speed/text.h"
#include "speed/timing.h"

#include <stdio.h>
#include <string.h>

/* A row once, one way, without what puts the image back. */
static double time_row(const struct row *row, enum way way)
{
    uint64_t spent = 0;
    for (size_t i = 0; i < row->count; i++) {
        const struct stream *s = &row->streams[i];
        const uint64_t from = time_now();
        way_take(way, s);
        spent += time_now() - from;
        way_restore(s->changed);
    }
    return (double)spent;
}

/* A round, behind one time that only warms the cache. */
static void time_round(struct measure *m, const struct row *row, enum way way)
{
    double spent = 0;
    uint64_t times = 0;
    time_row(row, way);
    while (spent < ROUND_NS) {
        spent += time_row(row, way);
        times++;
    }
    measure_note(m, spent, times);
}

/* How much faster a way takes a row than another, of which the samples may be others. */
static double ratio_of_rows(const struct row *row, double best, const struct row *other, double other_best)
{
    return (double)row->samples / best / ((double)other->samples / other_best);
}

static void print_title(const enum way *these, size_t count, int *columns)
{
    static const char *const again = " LPC / FWH";
    columns[0] = NAME_WIDTH;
    print_left("stream", NAME_WIDTH);
    for (size_t i = 0; i < count; i++) {
        columns[1 + i] = (int)strlen(way_name(these[i]));
        printf("| %s ", way_name(these[i]));
    }
    for (size_t i = 1; i < count; i++) {
        columns[count + i] = (int)(strlen(way_name(these[i])) + strlen(way_name(these[0])) + 3);
        printf("| %s / %s ", way_name(these[i]), way_name(these[0]));
    }
    for (size_t i = 1; i < count; i++) {
        columns[2 * count - 1 + i] = (int)(strlen(way_name(these[i])) + strlen(again));
        printf("| %s%s ", way_name(these[i]), again);
    }
    printf("|\n");
    print_rule(columns, 3 * count - 1);
}

/* A round of each row, then the next round: a busy minute of the machine meets all rows alike. */
static void time_streams(const struct row *rows, size_t row_count, const enum way *these, size_t count,
                         struct measure measures[][WAYS])
{
    for (uint32_t round = 0; round < ROUNDS; round++) {
        for (size_t r = 0; r < row_count; r++) {
            for (size_t i = 0; i < count; i++) {
                if (measures[r][i].spent < SIDE_NS) {
                    time_round(&measures[r][i], &rows[r], these[i]);
                }
            }
        }
    }
}

void print_streams(const struct row *rows, size_t row_count, const enum way *these, size_t count)
{
    struct measure measures[MOST_ROWS][WAYS] = { { { 0, 0 } } };
    int columns[3 * WAYS];
    time_streams(rows, row_count, these, count, measures);
    print_title(these, count, columns);
    for (size_t r = 0; r < row_count; r++) {
        print_left(rows[r].name, NAME_WIDTH);
        for (size_t i = 0; i < count; i++) {
            printf("| %*.1f ", columns[1 + i], (double)rows[r].samples * 1000 / measures[r][i].best);
        }
        for (size_t i = 1; i < count; i++) {
            printf("| %*.3f ", columns[count + i], measures[r][0].best / measures[r][i].best);
        }
        for (size_t i = 1; i < count; i++) {
            if (rows[r].again) {
                printf("| %*.3f ", columns[2 * count - 1 + i],
                       ratio_of_rows(&rows[r], measures[r][i].best, &rows[r - 1], measures[r - 1][i].best));
            } else {
                printf("| %*s ", columns[2 * count - 1 + i], "");
            }
        }
        printf("|\n");
    }
    fflush(stdout);
}
