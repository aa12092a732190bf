/* How often the traces reached what they are for. */
#ifndef DIFF_COUNTS_H
#define DIFF_COUNTS_H

#include <stdint.h>

#define TALLIES_TABLE \
    TALLY(PROGRAMS_FINISHED, "programs finished") \
    TALLY(ERASES_FINISHED, "erases finished") \
    TALLY(SLICES_FILLED, "slices filled") \
    TALLY(PROGRAM_SUSPENDS, "suspends of programs") \
    TALLY(ERASE_SUSPENDS, "suspends of erases") \
    TALLY(INNER_BEGUN, "inner programs begun") \
    TALLY(INNER_FINISHED, "inner programs finished") \
    TALLY(PROGRAM_RESUMES, "resumes of programs") \
    TALLY(ERASE_RESUMES, "resumes of erases") \
    TALLY(ENDED_IN_PAUSE, "ends inside a pause") \
    TALLY(ENDED_WITH_PAUSE, "ends on a pause's last clock") \
    TALLY(ENDED_BEFORE_COMMAND, "commands on the clock of an end") \
    TALLY(RESUMED_AT_PAUSE_END, "resumes on the clock of a suspend") \
    TALLY(ERROR_1, "error bit 1") \
    TALLY(ERROR_3, "error bit 3") \
    TALLY(ERROR_4_ALONE, "error bit 4 alone") \
    TALLY(ERROR_4, "error bit 4") \
    TALLY(ERROR_5, "error bit 5") \
    TALLY(ERRORS_CLEARED, "errors cleared") \
    TALLY(MARKS_SET, "marks set") \
    TALLY(MARKS_REMOVED, "marks removed") \
    TALLY(TWO_MARKS_AT_ONCE, "two marks at once") \
    TALLY(RESETS_RP, "resets by RP") \
    TALLY(RESETS_INIT, "resets by INIT") \
    TALLY(RESETS_BOTH, "resets by both") \
    TALLY(RESETS_PROGRAM, "resets of programs") \
    TALLY(RESETS_ERASE, "resets of erases") \
    TALLY(RESETS_PAUSING, "resets while pausing") \
    TALLY(RESETS_SUSPENDED, "resets while suspended") \
    TALLY(RESETS_LAST_CLOCK, "resets on a last clock") \
    TALLY(PINS_AGAINST_END, "ends with pins, voltage or lock against") \
    TALLY(LOCK_DOWN_HELD, "lock writes held by lock-down") \
    TALLY(READS_ARRAY, "array reads") \
    TALLY(READS_LOCKED, "read-locked reads") \
    TALLY(READS_STATUS, "status reads") \
    TALLY(READS_SIGNATURE, "signature reads") \
    TALLY(READS_REGISTER, "register reads") \
    TALLY(READS_NO_REGISTER, "reads of no register") \
    TALLY(READS_END_ON_15, "reads fixed on the clock of an end") \
    TALLY(READS_LPC_CODES, "reads where FWH has its codes, on LPC") \
    TALLY(READS_LPC_SIGNATURE, "signature reads on LPC") \
    TALLY(READS_LPC_REGISTER, "register reads on LPC") \
    TALLY(STRAP_MISMATCHES, "strap mismatches") \
    TALLY(SIZES_NOT_0, "sizes not 0") \
    TALLY(LPC_PIN_MISMATCHES, "pin mismatches on LPC") \
    TALLY(LPC_HIGH_MISMATCHES, "bits 23 to 31 not all 1 on LPC") \
    TALLY(OTHER_STARTS, "other start nibbles") \
    TALLY(SET_TIMES_DONE, "set times") \
    TALLY(SET_TIMES_BUSY, "set times during an operation") \
    TALLY(SETTLE_READY, "settles ready at once") \
    TALLY(SETTLE_DONE, "settles done") \
    TALLY(SETTLE_JUST_DONE, "settles done on the last sample") \
    TALLY(SETTLE_SHORT, "settles cut short") \
    TALLY(SETTLE_ZERO, "settles of limit 0") \
    TALLY(SETTLE_IN_FRAME, "settles in a frame") \
    TALLY(SETTLE_FRAME_ACTED, "writes acting in a settle") \
    TALLY(SETTLE_CLOCKS, "clocks in settles") \
    TALLY(SETTLE_LPC_BEGUN, "settles from clock 1 of an LPC frame") \
    TALLY(SENT_ELSEWHERE, "states set to other sound ones") \
    TALLY(SENT_TO_PART, "states set to the other part") \
    TALLY(VIEWS_IMAGE, "views of the image") \
    TALLY(VIEWS_PAGE, "views of the page") \
    TALLY(VIEWS_FRONT, "views of the front") \
    TALLY(SHEETS_READ, "sheets read") \
    TALLY(SHEETS_WRITTEN, "sheets written") \
    TALLY(RUNS, "runs") \
    TALLY(RUNS_EMPTY, "empty runs") \
    TALLY(RUNS_WHOLE_FWH, "whole traces run on FWH") \
    TALLY(RUNS_WHOLE_LPC, "whole traces run on LPC") \
    TALLY(POWER_UP_NO_PART, "power-ups of no part") \
    TALLY(POWER_UP_FWH_STRAPS, "power-ups with straps that FWH has not") \
    TALLY(POWER_UP_LPC_STRAPS, "power-ups with straps that LPC has not") \
    TALLY(RUN_NO_PART, "runs of no part") \
    TALLY(RUN_FWH_STRAPS, "runs with straps that FWH has not") \
    TALLY(RUN_LPC_STRAPS, "runs with straps that LPC has not") \
    TALLY(WILD_REFUSED, "wild devices refused") \
    TALLY(WILD_STEPPED_FWH, "wild devices stepped as FWH") \
    TALLY(WILD_STEPPED_LPC, "wild devices stepped as LPC") \
    TALLY(FAULTS_REFUSED, "devices of one fault refused") \
    TALLY(FAULT_PART, "of them: a part above 1") \
    TALLY(FAULT_FWH_STRAPS, "of them: straps above 15 on FWH") \
    TALLY(FAULT_LPC_STRAPS, "of them: straps above 3 on LPC") \
    TALLY(FAULT_BEGUN_ON_FWH, "of them: kind 3 on FWH") \
    TALLY(FAULT_BEGUN_CLOCK, "of them: kind 3 at another clock than 1") \
    TALLY(FAULT_LPC_CLOCK_1, "of them: kind 1 or 2 at clock 1 on LPC") \
    TALLY(FAULT_FWH_ADDRESS, "of them: an address above 28 bits on FWH")

#define TALLY(name, text) name,
enum tally { TALLIES_TABLE TALLIES };
#undef TALLY

void tally(enum tally what);
void tally_by(enum tally what, uint64_t times);

/* A call that gave this number. */
void tally_number(uint32_t number);

/* A clock of a trace on this part. */
void tally_clock(uint8_t part);

/* A low frame line with this nibble on the lines. */
void tally_start(uint8_t part, uint32_t nibble);

/* A frame that was broken off: its model_frame, and the clock that was not its own any more. */
void tally_break(uint8_t part, uint8_t frame, uint32_t clock);

/* A frame that a part with these straps took; the cycle type of an LPC frame; and the one bit from 20 on that an LPC
 * address had otherwise than the array's of the part. */
void tally_straps(uint8_t part, uint8_t straps);
void tally_type(uint32_t nibble);
void tally_flip(uint32_t bit);

/* A command byte in a model_condition; a write that ended a model_setup. */
void tally_command(uint8_t condition, uint8_t byte);
void tally_setup_ended(uint8_t condition, uint8_t setup);

/* Prints all of it; gives how many counts are zero that should not be. */
uint32_t print_tallies(void);

#endif
