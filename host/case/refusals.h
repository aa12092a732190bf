/* Calls apart from the samples of a scenario: those that are to be refused, and views. */
#ifndef CASE_REFUSALS_H
#define CASE_REFUSALS_H

#include "case/judge.h"
#include "case/lanes.h"
#include "case/scenario.h"

/* The call is refused with the right number, and nothing has changed by it. */
void refusal_check(const struct scenario *scenario, const struct check *check, struct lane *lane, struct judge *judge);

/* The view shows what it should. */
void view_check(const struct check *check, const struct lane *lane, struct judge *judge);

#endif
