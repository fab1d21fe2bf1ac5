/*
 * Runs of 10,000 picks on nets that are known from the literature (host/nets), library and reference by turns on the same picks. The picks are drawn
 * beforehand: any transition, and any binding of its menu if that has some, so that none is refused. Each run starts from a fresh copy of the marking;
 * the copy and the clearing of the buffers at the end are in the time, as they are in a caller's. A run takes longer than a processor is left to one
 * program on a busy machine, so the time is the processor's.
 */
#define _POSIX_C_SOURCE 200809L
#include "bench_run.h"
#include "gimletlemon.h"
#include "net_file.h"
#include "random.h"
#include "reference.h"

#include <inttypes.h>
#include <stdio.h>
#include <stdlib.h>
#include <string.h>
#include <time.h>

enum { PICKS = 10000, MENU_WORDS = 4096, TURNS = 50 };

static struct words net, marking;
static uint32_t picks[PICKS], buffer[MOST_WORDS], spare[MOST_WORDS], menu[MENU_WORDS];
static uint64_t all_tries, all_bindings, all_words; /* over the picks: of their menus, and of the markings before them */

static void fail(const char *name, const char *why) {
    fprintf(stderr, "%s: %s\n", name, why);
    exit(1);
}

/* One pick that can be fired in the marking, which then is the one after it. */
static uint32_t draw_pick(const char *name, const struct net *read, uint32_t *now, size_t *length) {
    static uint32_t next[MOST_WORDS];
    for (unsigned draws = 0; draws < 10000; draws++) {
        uint32_t transition = (uint32_t)random_below(read->transitions);
        unsigned variables = read->transition[transition].variables;
        uint64_t bindings, tries, words;
        if (ref_menu(net.at, net.length, transition, now, *length, UINT32_MAX, menu, MENU_WORDS, &bindings, &tries).number != 0) fail(name, "a menu is refused");
        if (bindings == 0) continue;
        uint64_t index = random_below(bindings);
        struct refusal r = ref_fire(net.at, net.length, transition, now, *length, menu + index * variables, variables, next, MOST_WORDS, &words);
        if (r.number != 0) continue;
        all_tries += tries;
        all_bindings += bindings;
        all_words += *length;
        memcpy(now, next, 4 * words);
        *length = words;
        return 0xD0000000u | transition << 14 | (uint32_t)index;
    }
    fail(name, "no transition is enabled");
    return 0;
}

static double seconds(void) {
    struct timespec t;
    clock_gettime(CLOCK_PROCESS_CPUTIME_ID, &t);
    return (double)t.tv_sec + 1e-9 * (double)t.tv_nsec;
}

/* What a run leaves has to be the marking that the picks were drawn to. */
static void expect(const char *name, uint32_t refusal, uint64_t done, uint64_t length, const uint32_t *last, size_t last_length) {
    if (refusal != 0 || done != PICKS || length != last_length || memcmp(buffer, last, 4 * last_length) != 0) fail(name, "a run ends elsewhere");
}

static double library_run(const char *name, const uint32_t *last, size_t last_length) {
    uint64_t done, length, position;
    double start = seconds();
    memcpy(buffer, marking.at, 4 * marking.length);
    uint32_t refusal = gimletlemon_run(net.at, net.length, UINT32_MAX, buffer, MOST_WORDS, marking.length, spare, MOST_WORDS, menu, MENU_WORDS, picks, PICKS,
                                       &done, &length, &position);
    double time = seconds() - start;
    expect(name, refusal, done, length, last, last_length);
    return time;
}

static double reference_run(const char *name, const uint32_t *last, size_t last_length) {
    uint64_t done, length;
    double start = seconds();
    memcpy(buffer, marking.at, 4 * marking.length);
    struct refusal r = ref_run(net.at, net.length, UINT32_MAX, buffer, MOST_WORDS, marking.length, spare, MOST_WORDS, menu, MENU_WORDS, picks, PICKS, &done, &length);
    double time = seconds() - start;
    expect(name, r.number, done, length, last, last_length);
    return time;
}

static void bench_net(const char *directory, const char *file, const char *what) {
    static struct net read;
    static uint32_t now[MOST_WORDS];
    size_t length;
    read_net_file(directory, file, &net, &marking);
    if (ref_accept_net(net.at, net.length, &read).number != 0) fail(file, "the net is refused");
    random_seed(1);
    all_tries = all_bindings = all_words = 0;
    length = marking.length;
    memcpy(now, marking.at, 4 * length);
    for (unsigned i = 0; i < PICKS; i++) picks[i] = draw_pick(file, &read, now, &length);
    double l = 1e30, r = 1e30;
    for (unsigned turn = 0; turn < TURNS; turn++) { /* by turns, the least of each: both meet the same moments of a busy machine */
        double a = library_run(file, now, length), b = reference_run(file, now, length);
        l = a < l ? a : l;
        r = b < r ? b : r;
    }
    printf("%-44s %8d picks   library %10.2f ns   reference %10.2f ns   library / reference %6.2f", what, PICKS, l * 1e9 / PICKS, r * 1e9 / PICKS, l / r);
    printf("   a pick; a second: library %.2f million picks, reference %.2f million", PICKS / l / 1e6, PICKS / r / 1e6);
    printf("; a pick's menu %.1f tries, %.1f bindings, marking %.1f words\n", (double)all_tries / PICKS, (double)all_bindings / PICKS, (double)all_words / PICKS);
}

void bench_runs(const char *directory) {
    bench_net(directory, "philosophers_5.net", "run, dining philosophers, 5");
    bench_net(directory, "philosophers_50.net", "run, dining philosophers, 50");
    bench_net(directory, "protocol.net", "run, stop-and-wait protocol");
    bench_net(directory, "database.net", "run, distributed database, 4 managers");
}
