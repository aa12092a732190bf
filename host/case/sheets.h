/* Bay sheets: read and written as a line says, or refused. */
#ifndef CASE_SHEETS_H
#define CASE_SHEETS_H

#include "case/judge.h"
#include "case/scenario.h"

void sheet_check(const struct check *check, struct judge *judge);
void sheet_refused(const struct check *check, struct judge *judge);

#endif
