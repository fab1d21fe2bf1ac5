/* Example a of document 01: one pump place with twenty tokens, and a transition that gives two shares of them; at the end a short game with forty. */
#include "gimletlemon.h"

#include <inttypes.h>
#include <stdio.h>

static const uint32_t net[] = {
    0x10000101,                                     /* NET: one place, one transition */
    0x20000001, 0x30000000,                         /* PLACE with one component, 0 to 0 */
    0x40020022,                                     /* TRANSITION: two variables, two input arcs, two elements */
    0x3002C00C, 0x30020009,                         /* their ranges, 11 to 12 and 8 to 9 */
    0x50000000, 0x80000000, 0x70000000,             /* the first takes variable 0 tokens of colour (0) */
    0x50000000, 0x80000001, 0x70000000,             /* the second takes variable 1 tokens of it */
    0xA0000200, 0xA0000201                          /* plan: range 0, range 1 */
};

static const uint32_t marking[] = {0xB0000014, 0xC0000000}; /* twenty tokens of colour (0) on place 0 */

#define WORDS(a) (sizeof(a) / sizeof(a)[0])

/* the value of a VALUE word, 14 bits two's complement */
static int32_t value_of(uint32_t word) {
    int32_t bits = (int32_t)(word & 0x3FFF);
    return bits < 0x2000 ? bits : bits - 0x4000;
}

static void print_words(const uint32_t *words, uint64_t length) {
    for (uint64_t i = 0; i < length; i++) printf(" %08" PRIX32, words[i]);
    printf("\n");
}

/* every binding that is enabled in a marking */
static void list(const uint32_t *words, size_t length) {
    uint32_t menu[16];
    uint64_t bindings, tries, position;
    uint32_t refusal = gimletlemon_menu(net, WORDS(net), 0, words, length, 1000, menu, WORDS(menu), &bindings, &tries, &position);
    printf("menu: refusal %" PRIu32 ", %" PRIu64 " bindings, %" PRIu64 " tries:", refusal, bindings, tries);
    for (uint64_t i = 0; i < bindings; i++) printf(" (%" PRId32 ", %" PRId32 ")", value_of(menu[2 * i]), value_of(menu[2 * i + 1]));
    printf("\n");
}

/* A game: load a marking with forty tokens, list, pick, list. Bindings are picked by their index in the list. */
static void play(void) {
    uint32_t buffer[8] = {0xB0000028, 0xC0000000}, spare[8], menu[16];
    const uint32_t picks[] = {0xD0000003, 0xD0000000, 0xD0000000}; /* of transition 0: indices 3, 0 and 0 */
    uint64_t done, length, position;
    list(buffer, 2);
    uint32_t refusal = gimletlemon_run(net, WORDS(net), 1000, buffer, WORDS(buffer), 2, spare, WORDS(spare), menu, WORDS(menu), picks, 1, &done, &length, &position);
    printf("pick 3: refusal %" PRIu32 ", %" PRIu64 " done, marking:", refusal, done);
    print_words(buffer, length);
    list(buffer, length);
    /* two picks in one run: the first takes the last tokens, and the second finds no binding at its index */
    refusal = gimletlemon_run(net, WORDS(net), 1000, buffer, WORDS(buffer), length, spare, WORDS(spare), menu, WORDS(menu), picks + 1, 2, &done, &length, &position);
    printf("pick 0, pick 0: refusal %" PRIu32 ", %" PRIu64 " done, marking:", refusal, done);
    print_words(buffer, length);
    list(buffer, length);
}

int main(void) {
    uint64_t position, rest;
    uint32_t refusal = gimletlemon_check(net, WORDS(net), &position);
    if (refusal != GIMLETLEMON_ACCEPTED) {
        printf("the net is refused with %" PRIu32 " at %" PRIu64 "\n", refusal, position);
        return 1;
    }
    printf("the net is accepted\n");

    /* without its last word it ends early */
    refusal = gimletlemon_check(net, WORDS(net) - 1, &position);
    printf("without its last word it is refused with %" PRIu32 " at %" PRIu64 "\n", refusal, position);

    refusal = gimletlemon_split(net, WORDS(net), &rest, &position);
    printf("split: refusal %" PRIu32 ", %zu words, %" PRIu64 " of them the net\n", refusal, WORDS(net), rest);

    for (uint32_t second = 8; second <= 9; second++) {
        const uint32_t binding[] = {0xC000000C, 0xC0000000 | second};
        uint64_t enabled;
        refusal = gimletlemon_test(net, WORDS(net), 0, marking, WORDS(marking), binding, WORDS(binding), &enabled, &position);
        printf("(12, %" PRIu32 "): refusal %" PRIu32 ", %s\n", second, refusal, enabled ? "enabled" : "not enabled");
    }

    list(marking, WORDS(marking));

    const uint32_t binding[] = {0xC000000B, 0xC0000008};
    uint32_t next[8];
    uint64_t length;
    refusal = gimletlemon_fire(net, WORDS(net), 0, marking, WORDS(marking), binding, WORDS(binding), next, WORDS(next), &length, &position);
    printf("fire (11, 8): refusal %" PRIu32 ", new marking:", refusal);
    print_words(next, length);

    play();
    return 0;
}
