/*
 * Times of the library beside those of the reference, on the same input in the same run. Both are called once before the clock starts, so that
 * caches are warm. The reference keeps its structures from call to call; the library makes its tables anew on the stack, and clears them.
 *
 * Menus are timed by the try: the time of a call divided by its tries. Their reference is a search made for speed (reference_menu.c). Runs are timed
 * by the pick, in bench_run.c; their reference (reference_run.c) has regard to speed too.
 *
 *     bench DIRECTORY      where the nets of host/nets are
 */
#define _POSIX_C_SOURCE 200809L
#include "bench_run.h"
#include "gimletlemon.h"
#include "random.h"
#include "reference.h"

#include <inttypes.h>
#include <stdio.h>
#include <stdlib.h>
#include <time.h>

static double seconds(void) {
    struct timespec t;
    clock_gettime(CLOCK_MONOTONIC, &t);
    return (double)t.tv_sec + 1e-9 * (double)t.tv_nsec;
}

/* what the calls answered, so that none of them can be left out */
static volatile uint64_t sink;

static struct words example_net = {14, {0x10000101, 0x20000001, 0x30000000, 0x40020022, 0x3002C00C, 0x30020009, 0x50000000,
                                        0x80000000, 0x70000000, 0x50000000, 0x80000001, 0x70000000, 0xA0000200, 0xA0000201}};
static struct words long_net;

static const struct words *net;

static void library_check(void) {
    uint64_t position;
    sink += gimletlemon_check(net->at, net->length, &position) + position;
}

static void reference_check(void) {
    struct refusal r = ref_check(net->at, net->length);
    sink += r.number + r.position;
}

static uint8_t bytes[4 * MOST_WORDS];

static void library_check_bytes(void) {
    uint64_t position;
    sink += gimletlemon_check_bytes(bytes, 4 * net->length, &position) + position;
}

static void reference_check_bytes(void) {
    struct refusal r = ref_check_bytes(bytes, 4 * net->length);
    sink += r.number + r.position;
}

static struct words marking, binding;

static void library_test(void) {
    uint64_t enabled, position;
    sink += gimletlemon_test(net->at, net->length, 0, marking.at, marking.length, binding.at, binding.length, &enabled, &position) + enabled + position;
}

static void reference_test(void) {
    uint64_t enabled;
    struct refusal r = ref_test(net->at, net->length, 0, marking.at, marking.length, binding.at, binding.length, &enabled);
    sink += r.number + r.position + enabled;
}

static uint32_t next[MOST_WORDS];

static void library_fire(void) {
    uint64_t length, position;
    sink += gimletlemon_fire(net->at, net->length, 0, marking.at, marking.length, binding.at, binding.length, next, MOST_WORDS, &length, &position) + length + position;
}

static void reference_fire(void) {
    uint64_t length;
    struct refusal r = ref_fire(net->at, net->length, 0, marking.at, marking.length, binding.at, binding.length, next, MOST_WORDS, &length);
    sink += r.number + r.position + length;
}

/* ns for a call, the least of five runs */
static double time_of(void (*call)(void), unsigned times) {
    double best = 1e30;
    call();
    for (unsigned run = 0; run < 5; run++) {
        double start = seconds();
        for (unsigned i = 0; i < times / 5; i++) call();
        double ns = (seconds() - start) * 1e9 / (times / 5);
        if (ns < best) best = ns;
    }
    return best;
}

/* by turns, the least of each: both meet the same moments of a busy machine */
static void compare(const char *what, unsigned times, void (*library)(void), void (*reference)(void)) {
    double l = 1e30, r = 1e30;
    for (unsigned turn = 0; turn < 5; turn++) {
        double a = time_of(library, times / 5), b = time_of(reference, times / 5);
        l = a < l ? a : l;
        r = b < r ? b : r;
    }
    printf("%-44s %8u calls   library %10.1f ns   reference %10.1f ns   library / reference %6.2f\n", what, times, l, r, l / r);
}

/* ── Menus ── */

enum { MENU_WORDS = 8 * 16383 };

static uint32_t menu[MENU_WORDS];

static void library_menu(void) {
    uint64_t bindings, tries, position;
    sink += gimletlemon_menu(net->at, net->length, 0, marking.at, marking.length, UINT32_MAX, menu, MENU_WORDS, &bindings, &tries, &position);
    sink += bindings + tries + position;
}

static void reference_menu(void) {
    uint64_t bindings, tries;
    struct refusal r = ref_menu(net->at, net->length, 0, marking.at, marking.length, UINT32_MAX, menu, MENU_WORDS, &bindings, &tries);
    sink += r.number + r.position + bindings + tries;
}

static void compare_menus(const char *what, unsigned times) {
    uint64_t bindings, tries, found, made, position;
    if (ref_menu(net->at, net->length, 0, marking.at, marking.length, UINT32_MAX, menu, MENU_WORDS, &bindings, &tries).number != 0) exit(1);
    if (gimletlemon_menu(net->at, net->length, 0, marking.at, marking.length, UINT32_MAX, menu, MENU_WORDS, &found, &made, &position) != 0) exit(1);
    if (found != bindings || made != tries) exit(1);
    double l = 1e30, r = 1e30;
    for (unsigned turn = 0; turn < 5; turn++) { /* by turns, as above */
        double a = time_of(library_menu, times / 5), b = time_of(reference_menu, times / 5);
        l = a < l ? a : l;
        r = b < r ? b : r;
    }
    printf("%-44s %8u calls   library %10.2f ns   reference %10.2f ns", what, times, l / (double)tries, r / (double)tries);
    printf("   library / reference %6.2f   a try; %" PRIu64 " tries, %" PRIu64 " bindings; a call: library %.0f ns, reference %.0f ns\n", l / r, tries, bindings, l, r);
}

static void add(struct words *w, uint32_t word) { w->at[w->length++] = word; }

/* example a with shares from 0 to 99 each, of 120 tokens */
static void wide_example(struct words *wide) {
    *wide = example_net;
    wide->at[4] = wide->at[5] = 0x30000000 | 99;
    marking.length = 0;
    add(&marking, ref_token_word(0, 120));
    add(&marking, ref_value_word(0));
}

/* one match of (x, y) over 3,000 colours, and a guard: x <= y and (x + y) remainder 3 is not 0 */
static void match_and_guard(struct words *matching) {
    static const uint32_t words[] = {0x10000101, 0x20000002, 0x38001FFF, 0x38001FFF, 0x40012012, 0x38001FFF, 0x38001FFF, 0x50000000, 0x70000001,
                                     0x80000000, 0x80000001, 0x60000003, 0x80000000, 0x80000001, 0x60000001, 0x90000003, 0x90000000, 0x80000000,
                                     0x80000001, 0x70000003, 0x70000000, 0xA0000000};
    matching->length = marking.length = 0;
    for (size_t i = 0; i < sizeof words / sizeof words[0]; i++) add(matching, words[i]);
    for (int32_t x = 0; x < 3000; x++) {
        add(&marking, ref_token_word(0, 1));
        add(&marking, ref_value_word(x - 1500));
        add(&marking, ref_value_word(x * 1777 % 3000 - 1500));
    }
}

/* matches of (x, y), (y, z) and (z, x, w), values from 0 to 19, over about 100, 100 and 200 colours */
static void three_matches(struct words *matching) {
    static const uint32_t words[] = {0x10000301,
                                     0x20000002, 0x30000013, 0x30000013, 0x20000002, 0x30000013, 0x30000013, 0x20000003, 0x30000013, 0x30000013, 0x30000013,
                                     0x40030034, 0x30000013, 0x30000013, 0x30000013, 0x30000013,
                                     0x50000000, 0x70000001, 0x80000000, 0x80000001, 0x50000001, 0x70000001, 0x80000001, 0x80000002,
                                     0x50000002, 0x70000001, 0x80000002, 0x80000000, 0x80000003, 0xA0000000, 0xA0000001, 0xA0000002};
    matching->length = marking.length = 0;
    for (size_t i = 0; i < sizeof words / sizeof words[0]; i++) add(matching, words[i]);
    random_seed(3);
    for (unsigned place = 0; place < 3; place++)
        for (int32_t i = 0; i < (place < 2 ? 400 : 8000); i++) {
            if (random_below(place < 2 ? 4 : 40) != 0) continue;
            add(&marking, ref_token_word(place, 1));
            if (place == 2) add(&marking, ref_value_word(i / 400));
            add(&marking, ref_value_word(i / 20 % 20));
            add(&marking, ref_value_word(i % 20));
        }
}

static void to_bytes(const struct words *w) {
    for (size_t i = 0; i < 4 * w->length; i++) bytes[i] = (uint8_t)(w->at[i / 4] >> 8 * (i % 4));
}

int main(int argc, char **argv) {
    if (argc != 2) {
        fprintf(stderr, "usage: bench DIRECTORY\n");
        return 2;
    }
    net = &example_net;
    if (ref_check(net->at, net->length).number != 0) return 1;
    to_bytes(net);
    compare("check, example a (14 words)", 1000000, library_check, reference_check);
    compare("check on bytes, example a", 1000000, library_check_bytes, reference_check_bytes);

    random_seed(1);
    sized_net(&long_net, MOST_WORDS);
    net = &long_net;
    if (net->length != MOST_WORDS || ref_check(net->at, net->length).number != 0) return 1;
    to_bytes(net);
    compare("check, a net of 16,384 words", 5000, library_check, reference_check);
    compare("check on bytes, a net of 16,384 words", 5000, library_check_bytes, reference_check_bytes);

    net = &example_net;
    marking.length = binding.length = 2;
    marking.at[0] = 0xB0000014;
    marking.at[1] = 0xC0000000;
    binding.at[0] = 0xC000000C;
    binding.at[1] = 0xC0000008;
    compare("test, example a", 1000000, library_test, reference_test);

    static struct words moving;
    long_situation(&moving, &marking, &binding);
    marking.length = 2 * 5000;
    binding.at[0] = ref_value_word(2500 - 8192);
    net = &moving;
    uint64_t length;
    if (ref_fire(net->at, net->length, 0, marking.at, marking.length, binding.at, binding.length, next, MOST_WORDS, &length).number != 0) return 1;
    compare("fire, a marking of 5,000 entries", 5000, library_fire, reference_fire);

    static struct words searched;
    net = &searched;
    wide_example(&searched);
    compare_menus("menu, example a with 100 values each", 500);
    match_and_guard(&searched);
    compare_menus("menu, a match over 3,000 colours, guard", 500);
    three_matches(&searched);
    compare_menus("menu, three matches with shared variables", 100);

    bench_runs(argv[1]);
    return 0;
}
