/* Runs of the library beside those of the reference; a part of host/test.c. */
#ifndef TEST_RUN_H
#define TEST_RUN_H

#include "random.h"

#include <stdbool.h>
#include <stddef.h>

void make_run_buffers(void);

/* a net with a plan of some taste, a marking and picks, at most so many; with budgets and buffers that just suffice and that do not; then damaged */
void round_runs(enum taste taste, size_t most_picks);

/* nets and markings of about 16,384 words, and menus of about 16,383 bindings */
void round_long_runs(unsigned kind);

/* Prints what was met. Says no where `all` refusals that a run can answer had to be met and one was not. */
bool print_runs(bool all);

#endif
