/* Runs by the pick; a part of host/bench.c. */
#ifndef BENCH_RUN_H
#define BENCH_RUN_H

/* Picks a second of library and reference, on the nets of a directory. */
void bench_runs(const char *directory);

#endif
