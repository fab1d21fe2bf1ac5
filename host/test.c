/*
 * Compares the library with the reference on many random inputs, good and damaged, and prints how many of each answer it met. It ends at the
 * first difference with status 1 and prints it.
 *
 *     test [seed [rounds]]
 */
#include "compare.h"
#include "gimletlemon.h"
#include "random.h"
#include "reference.h"
#include "test_run.h"

#include <inttypes.h>
#include <stdio.h>
#include <stdlib.h>
#include <string.h>

static uint64_t yes[CALLS], empty_menus, bindings_found, listed_menus, rounds = 60000;

static struct buffer net_buffer, marking_buffer, binding_buffer, next_buffer, menu_buffer;

/* ── Check and split ── */

static void to_bytes(const struct words *w, uint8_t *bytes) {
    for (size_t i = 0; i < 4 * w->length; i++) bytes[i] = (uint8_t)(w->at[i / 4] >> 8 * (i % 4));
}

/* some bytes more than whole words, or fewer */
static size_t byte_length(const struct words *w, uint8_t *bytes) {
    size_t length = 4 * w->length;
    if (random_below(4) != 0) return length;
    if (random_below(2) == 0 && length > 3) return length - 1 - random_below(3);
    for (uint64_t k = random_below(4); k > 0; k--) bytes[length++] = (uint8_t)random_below(256);
    return length;
}

static void try_net(const struct words *net) {
    static uint8_t bytes[4 * ROOM + 4];
    struct answer library = {{0, unwritten}, 0, 0}, reference = {{0, 0}, 0, 0};
    uint32_t *lent = place(&net_buffer, net->at, 4 * net->length);

    library.refusal.number = gimletlemon_check(lent, net->length, &library.refusal.position);
    reference.refusal = ref_check(net->at, net->length);
    if (!agree(CHECK, library, reference)) fail_net(net);

    library.refusal.position = library.number = unwritten;
    library.refusal.number = gimletlemon_split(lent, net->length, &library.number, &library.refusal.position);
    reference.refusal = ref_split(net->at, net->length, &reference.number);
    if (!agree(SPLIT, library, reference)) fail_net(net);
    if (net->length > 0 && memcmp(lent, net->at, 4 * net->length) != 0) {
        differs(SPLIT, "the words lent", library, reference);
        fail_net(net);
    }

    to_bytes(net, bytes);
    size_t length = byte_length(net, bytes);
    uint8_t *lent_bytes = place(&net_buffer, bytes, length);
    library.refusal.position = unwritten;
    library.number = reference.number = 0;
    library.refusal.number = gimletlemon_check_bytes(lent_bytes, length, &library.refusal.position);
    reference.refusal = ref_check_bytes(bytes, length);
    if (!agree(CHECK_BYTES, library, reference)) {
        printf("%zu bytes\n", length);
        fail_net(net);
    }
    if (length > 0 && memcmp(lent_bytes, bytes, length) != 0) {
        differs(CHECK_BYTES, "the bytes lent", library, reference);
        fail_net(net);
    }
}

/* ── Test and fire ── */

static void fail_situation(const struct words *net, uint32_t transition, const struct words *marking, const struct words *binding) {
    printf("transition %" PRIu32 "\n", transition);
    print_words("marking", marking->at, marking->length);
    print_words("binding", binding->at, binding->length);
    fail_net(net);
}

static void try_test(const struct words *net, uint32_t transition, const struct words *marking, const struct words *binding) {
    static uint8_t net_bytes[4 * ROOM + 4], marking_bytes[4 * ROOM + 4], binding_bytes[4 * ROOM + 4];
    struct answer library = {{0, unwritten}, unwritten, 0}, reference = {{0, 0}, 0, 0};
    uint32_t *n = place(&net_buffer, net->at, 4 * net->length), *m = place(&marking_buffer, marking->at, 4 * marking->length);
    uint32_t *b = place(&binding_buffer, binding->at, 4 * binding->length);
    library.refusal.number = gimletlemon_test(n, net->length, transition, m, marking->length, b, binding->length, &library.number, &library.refusal.position);
    reference.refusal = ref_test(net->at, net->length, transition, marking->at, marking->length, binding->at, binding->length, &reference.number);
    if (!agree(TEST, library, reference)) fail_situation(net, transition, marking, binding);
    yes[TEST] += reference.number;
    if (!kept(n, net->at, 4 * net->length) || !kept(m, marking->at, 4 * marking->length) || !kept(b, binding->at, 4 * binding->length)) {
        differs(TEST, "the words lent", library, reference);
        fail_situation(net, transition, marking, binding);
    }

    to_bytes(net, net_bytes);
    to_bytes(marking, marking_bytes);
    to_bytes(binding, binding_bytes);
    size_t nl = byte_length(net, net_bytes), ml = byte_length(marking, marking_bytes), bl = byte_length(binding, binding_bytes);
    uint8_t *nb = place(&net_buffer, net_bytes, nl), *mb = place(&marking_buffer, marking_bytes, ml), *bb = place(&binding_buffer, binding_bytes, bl);
    library.refusal.position = library.number = unwritten;
    library.refusal.number = gimletlemon_test_bytes(nb, nl, transition, mb, ml, bb, bl, &library.number, &library.refusal.position);
    reference.refusal = ref_test_bytes(net_bytes, nl, transition, marking_bytes, ml, binding_bytes, bl, &reference.number);
    if (!agree(TEST_BYTES, library, reference)) {
        printf("%zu, %zu and %zu bytes\n", nl, ml, bl);
        fail_situation(net, transition, marking, binding);
    }
    yes[TEST_BYTES] += reference.number;
    if (!kept(nb, net_bytes, nl) || !kept(mb, marking_bytes, ml) || !kept(bb, binding_bytes, bl)) {
        differs(TEST_BYTES, "the bytes lent", library, reference);
        fail_situation(net, transition, marking, binding);
    }
}

static void try_fire(const struct words *net, uint32_t transition, const struct words *marking, const struct words *binding) {
    static uint32_t before[ROOM], after[ROOM];
    struct answer library = {{0, unwritten}, unwritten, 0}, reference = {{0, 0}, 0, 0};
    /* room for any marking, about enough, or little */
    size_t room = random_below(2) == 0 ? MOST_WORDS : random_below(2) == 0 ? marking->length + random_below(6) : random_below(12);
    if (room > MOST_WORDS + 6) room = MOST_WORDS + 6;
    fill_words(before, room);
    memcpy(after, before, 4 * room);
    uint32_t *n = place(&net_buffer, net->at, 4 * net->length), *m = place(&marking_buffer, marking->at, 4 * marking->length);
    uint32_t *b = place(&binding_buffer, binding->at, 4 * binding->length), *next = place(&next_buffer, before, 4 * room);
    set_fence(next);
    library.refusal.number = gimletlemon_fire(n, net->length, transition, m, marking->length, b, binding->length, next, room, &library.number, &library.refusal.position);
    reference.refusal = ref_fire(net->at, net->length, transition, marking->at, marking->length, binding->at, binding->length, after, room, &reference.number);
    if (!agree(FIRE, library, reference)) {
        printf("room %zu\n", room);
        fail_situation(net, transition, marking, binding);
    }
    if (!kept(next, after, 4 * room) || !fence_kept(next)) {
        differs(FIRE, "the buffer", library, reference);
        print_words("library's buffer", next, room);
        print_words("reference's buffer", after, room);
        fail_situation(net, transition, marking, binding);
    }
    if (!kept(n, net->at, 4 * net->length) || !kept(m, marking->at, 4 * marking->length) || !kept(b, binding->at, 4 * binding->length)) {
        differs(FIRE, "the words lent", library, reference);
        fail_situation(net, transition, marking, binding);
    }
}

static void try_situation(const struct words *net, uint32_t transition, const struct words *marking, const struct words *binding) {
    try_test(net, transition, marking, binding);
    try_fire(net, transition, marking, binding);
}

/* ── Menus ── */

enum { MENU_ROOM = 8 * 16383 + 4096, LISTED = 4000 };

static void fail_menu(const struct words *net, uint32_t transition, const struct words *marking, uint32_t budget, size_t room) {
    printf("transition %" PRIu32 ", budget %" PRIu32 ", a buffer of %zu words\n", transition, budget, room);
    print_words("marking", marking->at, marking->length);
    fail_net(net);
}

/* The bindings that a lister of all bindings finds, if there are few enough to list. */
struct list {
    int known;
    uint64_t bindings;
    size_t length; /* in words */
    uint32_t words[8 * LISTED];
};

/* What a call answered and left in the buffer, against the list. */
static int same_list(const struct list *list, struct answer a, const uint32_t *menu, size_t room) {
    if (!list->known || a.refusal.number == 10) return 1;
    listed_menus++;
    if (list->length > room) return a.refusal.number == 11;
    return a.refusal.number == 0 && a.number == list->bindings && kept(menu, list->words, 4 * list->length);
}

static void try_menu(const struct words *net, uint32_t transition, const struct words *marking, uint32_t budget, size_t room, const struct list *list) {
    static uint32_t before[MENU_ROOM], after[MENU_ROOM];
    struct answer library = {{0, unwritten}, unwritten, unwritten}, reference = {{0, 0}, 0, 0};
    fill_words(before, room);
    memcpy(after, before, 4 * room);
    uint32_t *n = place(&net_buffer, net->at, 4 * net->length), *m = place(&marking_buffer, marking->at, 4 * marking->length);
    uint32_t *menu = place(&menu_buffer, before, 4 * room);
    set_fence(menu);
    library.refusal.number =
        gimletlemon_menu(n, net->length, transition, m, marking->length, budget, menu, room, &library.number, &library.second, &library.refusal.position);
    reference.refusal =
        ref_menu(net->at, net->length, transition, marking->at, marking->length, budget, after, room, &reference.number, &reference.second);
    if (!agree(MENU, library, reference)) fail_menu(net, transition, marking, budget, room);
    if (!kept(menu, after, 4 * room) || !fence_kept(menu)) {
        differs(MENU, "the buffer", library, reference);
        print_words("buffer before", before, room);
        print_words("library's buffer", menu, room);
        print_words("reference's buffer", after, room);
        fail_menu(net, transition, marking, budget, room);
    }
    if (!kept(n, net->at, 4 * net->length) || !kept(m, marking->at, 4 * marking->length)) {
        differs(MENU, "the words lent", library, reference);
        fail_menu(net, transition, marking, budget, room);
    }
    if (!same_list(list, library, menu, room)) {
        differs(MENU, "what all bindings tested one by one give", library, reference);
        print_words("library's buffer", menu, room);
        printf("%" PRIu64 " bindings are enabled\n", list->bindings);
        print_words("these", list->words, list->length);
        fail_menu(net, transition, marking, budget, room);
    }
    empty_menus += reference.refusal.number == 0 && reference.number == 0;
    bindings_found += reference.number;
}

/* The least budget with which a menu is not refused with 10: its tries, also where it is refused with 11. */
static uint32_t least_budget(const struct words *net, uint32_t transition, const struct words *marking, uint32_t high) {
    uint64_t bindings, tries;
    uint32_t low = 0, word;
    while (low < high) {
        uint32_t middle = low + (high - low) / 2;
        if (ref_menu(net->at, net->length, transition, marking->at, marking->length, middle, &word, 0, &bindings, &tries).number == 10) low = middle + 1;
        else high = middle;
    }
    return low;
}

/* Menus with budgets and buffers that just suffice, just do not and do by far. Where more than `most` tries are needed, with less budget. */
static void try_menus(const struct words *net, uint32_t transition, const struct words *marking, uint32_t most) {
    static uint32_t words[MENU_ROOM];
    static struct net read;
    static struct list list;
    uint64_t bindings, tries;
    size_t end, room;
    struct refusal r = ref_menu(net->at, net->length, transition, marking->at, marking->length, most, words, MENU_ROOM, &bindings, &tries);
    list.known = 0;
    if (r.number != 0 && r.number != 11) { /* the input is refused, whatever budget and buffer are; or `most` is too little a budget */
        uint32_t budget = (uint32_t)random_below(r.number == 10 ? most : 1ull << random_below(33));
        try_menu(net, transition, marking, budget, random_below(40), &list);
        return;
    }
    if (ref_read_net(net->at, net->length, &read, &end).number != 0) exit(2);
    unsigned variables = read.transition[transition].variables;
    if (r.number == 11) { /* more than 16,383 bindings: no buffer is long enough */
        uint32_t enough = least_budget(net, transition, marking, most);
        room = 16385 * variables;
        try_menu(net, transition, marking, enough, room, &list);
        try_menu(net, transition, marking, enough - 1, room, &list);
        try_menu(net, transition, marking, UINT32_MAX, room + 1 + random_below(50), &list);
        try_menu(net, transition, marking, enough, random_below(room), &list);
        return;
    }
    /* each binding is tested in a copy of the marking, so that with long markings fewer are listed */
    uint64_t listed = marking->length < 200 ? LISTED : 200 * LISTED / marking->length;
    list.known = ref_list_all(net->at, net->length, transition, marking->at, marking->length, listed, list.words, &list.bindings);
    list.length = list.bindings * variables;

    uint32_t exactly = (uint32_t)tries;
    room = bindings * variables;
    try_menu(net, transition, marking, exactly, room, &list);
    try_menu(net, transition, marking, UINT32_MAX - (uint32_t)random_below(3), room + 1 + random_below(random_below(8) == 0 ? 3000 : 20), &list);
    try_menu(net, transition, marking, exactly + (uint32_t)random_below(100), 0, &list);
    if (exactly > 0) {
        try_menu(net, transition, marking, exactly - 1, room + random_below(2), &list);
        try_menu(net, transition, marking, (uint32_t)random_below(exactly), random_below(room + 40), &list);
    }
    if (room > 0) {
        try_menu(net, transition, marking, exactly + (uint32_t)random_below(2), room - 1, &list);
        try_menu(net, transition, marking, exactly, random_below(room), &list);
        try_menu(net, transition, marking, exactly - 1, room - 1, &list); /* 10 goes before 11 */
    }
}

/* ── Rounds ── */

static struct words net, marking, binding, spoilt;

/* a good net and the same damaged */
static void round_nets(int large) {
    random_net(&net, large);
    try_net(&net);
    for (unsigned k = 0; k < 6; k++) {
        spoilt.length = net.length;
        memcpy(spoilt.at, net.at, 4 * net.length);
        if (k < 2) damage_plan(&spoilt);
        else
            for (uint64_t times = 1 + random_below(3) / 2; times > 0; times--) damage(&spoilt);
        try_net(&spoilt);
    }
}

/* nets of about 16,384 words, cut off and with words after them */
static void round_sizes(void) {
    sized_net(&net, random_below(4) == 0 ? 4675 + random_below(43009) : MOST_WORDS - 2 + random_below(5));
    try_net(&net);
    marking.length = 2;
    marking.at[0] = ref_token_word(0, 3);
    marking.at[1] = ref_value_word(0);
    try_menus(&net, (uint32_t)random_below(70), &marking, 1000);
    size_t length = net.length;
    for (unsigned k = 0; k < 4; k++) {
        net.length = MOST_WORDS - 2 + random_below(5);
        for (size_t i = length; i < net.length; i++) net.at[i] = (uint32_t)random_below(1ull << 32);
        try_net(&net);
        length = length < net.length ? length : net.length;
    }
    net.length = ROOM;
    for (size_t i = length; i < ROOM; i++) net.at[i] = 0x70000000u;
    try_net(&net);
}

/* a marking and a binding for a good net; then one of the three damaged, or another transition */
static void round_situations(size_t words) {
    static struct net read;
    size_t end;
    random_net(&net, 0);
    if (ref_read_net(net.at, net.length, &read, &end).number != 0) return;
    for (unsigned k = 0; k < 6; k++) {
        uint32_t transition = (uint32_t)random_below(read.transitions);
        random_situation(&read, transition, &marking, &binding);
        if (words > 0) random_marking(&read, words, &marking);
        try_situation(&net, transition, &marking, &binding);
        if (k == 0) try_menus(&net, transition, &marking, 500);
        switch (random_below(8)) {
        case 0: damage(&net); break;
        case 1: transition = (uint32_t)(random_below(4) == 0 ? random_below(1ull << 32) : random_below(read.transitions + 2)); break;
        case 2:
        case 3:
        case 4: damage(&marking); break;
        default: damage(&binding); break;
        }
        try_situation(&net, transition, &marking, &binding);
        if (ref_read_net(net.at, net.length, &read, &end).number != 0) return;
    }
}

/* markings of about 16,384 words */
static void round_long(int menus) {
    long_situation(&net, &marking, &binding);
    try_situation(&net, 0, &marking, &binding);
    if (menus) try_menus(&net, 0, &marking, 20000);
    damage(&marking);
    try_situation(&net, 0, &marking, &binding);
    if (menus) try_menus(&net, 0, &marking, 20000);
}

/* menus with a plan of some taste; then net, plan or marking damaged, or another transition */
static void round_menus(enum taste taste) {
    static uint32_t words[MENU_ROOM];
    uint32_t transition;
    uint64_t bindings = 0, tries;
    for (unsigned draws = 0; draws < 5 && bindings == 0; draws++) { /* a few draws for a menu that is not empty */
        random_menu(taste, &net, &marking, &transition);
        ref_menu(net.at, net.length, transition, marking.at, marking.length, 3000, words, MENU_ROOM, &bindings, &tries);
    }
    try_menus(&net, transition, &marking, 3000);
    spoilt.length = net.length;
    memcpy(spoilt.at, net.at, 4 * net.length);
    if (random_below(3) == 0) damage(&spoilt);
    else damage_plan(&spoilt); /* now and then another plan that fits */
    try_menus(&spoilt, transition, &marking, 3000);
    if (random_below(3) == 0) transition = (uint32_t)(random_below(4) == 0 ? random_below(1ull << 32) : random_below(4));
    else damage(&marking);
    try_menus(&net, transition, &marking, 3000);
}

/* menus of about 16,383 bindings, and of long markings */
static void round_wide(unsigned kind) {
    wide_menu(kind, &net, &marking);
    try_menus(&net, 0, &marking, 1000000);
}

int main(int argc, char **argv) {
    if (argc > 1) seed = strtoull(argv[1], NULL, 0);
    if (argc > 2) rounds = strtoull(argv[2], NULL, 0);
    make(&net_buffer, 4 * ROOM + 64);
    make(&marking_buffer, 4 * ROOM + 64);
    make(&binding_buffer, 4 * ROOM + 64);
    make(&next_buffer, 4 * ROOM + 64);
    make(&menu_buffer, 4 * MENU_ROOM + 64);
    make_run_buffers();
    printf("seed %" PRIu64 ", %" PRIu64 " rounds\n", seed, rounds);
    for (now_round = 0; now_round < rounds; now_round++) {
        random_seed(seed + now_round);
        round_nets(now_round % 400 == 1);
        round_situations(now_round % 400 == 2 ? 1 + random_below(MOST_WORDS + 400) : 0);
        if (now_round % 50 == 3) round_long(now_round % 1000 == 3);
        if (now_round % 50 == 0) round_sizes();
        round_menus((enum taste)(now_round % PLAN_TASTES));
        if (now_round % 200 == 4) round_wide((unsigned)(now_round / 200));
        round_runs((enum taste)(now_round / 2 % PLAN_TASTES), now_round % 500 == 7 ? 2000 : 40);
        if (now_round % 200 == 5) round_long_runs((unsigned)(now_round / 200));
    }
    for (unsigned c = 0; c < CALLS; c++) {
        uint64_t sum = 0;
        for (unsigned n = 0; n < 17; n++) sum += met[c][n];
        if (sum == 0) continue;
        printf("%s: %" PRIu64 " tried, all the same:", call_names[c], sum);
        if (c == TEST || c == TEST_BYTES) printf(" %" PRIu64 " yes, %" PRIu64 " no", yes[c], met[c][0] - yes[c]);
        else if (c == MENU) printf(" %" PRIu64 " found (%" PRIu64 " bindings; %" PRIu64 " menus without any)", met[c][0], bindings_found, empty_menus);
        else printf(" %" PRIu64 " accepted", met[c][0]);
        for (unsigned n = 1; n < 17; n++)
            if (met[c][n] > 0) printf(", %" PRIu64 " refused with %u", met[c][n], n);
        printf("\n");
    }
    printf("menus also held against all bindings tested one by one: %" PRIu64 "\n", listed_menus);
    return print_runs(rounds >= 2000) ? 0 : 1;
}
