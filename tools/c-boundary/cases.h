/* The groups of cases. The first seven are run in every placement; those of the limits lend large memory. */
#ifndef CASES_H
#define CASES_H

#include "lent.h"

void expand_cases(enum placement placement);
void call_cases(enum placement placement);
void execute_cases(enum placement placement);
void same_cases(enum placement placement);
void index_cases(enum placement placement);
void report_cases(enum placement placement);
void dispatcher_cases(enum placement placement);
void name_cases(void);
void limit_cases(void);

#endif
