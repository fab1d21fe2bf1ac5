/*
 * Runs; see test_run.h. Each run is held against the reference's run, answer and every word of the three buffers. Short ones are also held against
 * the reference's menu and fire called for each pick in turn, so that two ways of the reference agree on what a run is.
 */
#include "test_run.h"
#include "compare.h"
#include "gimletlemon.h"
#include "reference.h"

#include <inttypes.h>
#include <stdio.h>
#include <stdlib.h>
#include <string.h>

enum { RUN_ROOM = MOST_WORDS + 64, MENU_ROOM = 8 * 16384 + 64, BY_TURNS = 64 };

static uint64_t picks_done, longest, stopped_later, by_turns;

static struct buffer net_buffer, run_buffer, spare_buffer, menu_buffer, picks_buffer;

void make_run_buffers(void) {
    make(&net_buffer, 4 * ROOM + FENCE);
    make(&run_buffer, 4 * RUN_ROOM + FENCE);
    make(&spare_buffer, 4 * RUN_ROOM + FENCE);
    make(&menu_buffer, 4 * MENU_ROOM + FENCE);
    make(&picks_buffer, 4 * ROOM + FENCE);
}

/* ── One run ── */

/* what a run is handed */
struct input {
    struct words net, marking, picks;
    size_t m; /* as handed in, which need not be the marking's length */
    uint32_t budget;
    size_t buffer, spare, menu; /* lengths; the buffer has the marking in front, if it is long enough */
};

/* what the three buffers hold */
struct held {
    uint32_t buffer[RUN_ROOM], spare[RUN_ROOM], menu[MENU_ROOM];
};

static void fail_run(const struct input *in, const struct held *before) {
    printf("budget %" PRIu32 ", m %zu, a buffer of %zu words, a spare of %zu, a menu of %zu\n", in->budget, in->m, in->buffer, in->spare, in->menu);
    print_words("buffer before", before->buffer, in->buffer);
    print_words("picks", in->picks.at, in->picks.length);
    fail_net(&in->net);
}

static void zero(uint32_t *words, size_t length) {
    if (length > 0) memset(words, 0, 4 * length);
}

/* The reference's menu and fire for each pick in turn. The input has been accepted. */
static struct answer run_by_turns(const struct input *in, struct held *h) {
    static uint32_t now[MOST_WORDS], next[MOST_WORDS], menu[MENU_ROOM];
    static struct net read;
    size_t length = in->m, room = in->buffer < in->spare ? in->buffer : in->spare, end;
    struct answer a = {{0, 0}, 0, 0};
    if (ref_read_net(in->net.at, in->net.length, &read, &end).number != 0) exit(2);
    memcpy(now, h->buffer, 4 * length);
    for (; a.second < in->picks.length; a.second++) {
        uint32_t transition = in->picks.at[a.second] >> 14 & 255;
        uint64_t bindings, tries, words, index = in->picks.at[a.second] & 16383;
        unsigned variables = read.transition[transition].variables;
        a.refusal = ref_menu(in->net.at, in->net.length, transition, now, length, in->budget, menu, in->menu, &bindings, &tries);
        if (a.refusal.number == 0 && index >= bindings) a.refusal.number = 12;
        if (a.refusal.number != 0) break;
        a.refusal = ref_fire(in->net.at, in->net.length, transition, now, length, menu + index * variables, variables, next, room, &words);
        if (a.refusal.number != 0) break;
        memcpy(now, next, 4 * words);
        length = words;
    }
    a.number = length;
    memcpy(h->buffer, now, 4 * length);
    zero(h->buffer + length, in->buffer - length);
    zero(h->spare, in->spare);
    zero(h->menu, in->menu);
    return a;
}

static int same_held(const struct input *in, const uint32_t *buffer, const uint32_t *spare, const uint32_t *menu, const struct held *h) {
    return kept(buffer, h->buffer, 4 * in->buffer) && kept(spare, h->spare, 4 * in->spare) && kept(menu, h->menu, 4 * in->menu);
}

static void copy_held(const struct input *in, struct held *to, const struct held *from) {
    memcpy(to->buffer, from->buffer, 4 * in->buffer);
    memcpy(to->spare, from->spare, 4 * in->spare);
    memcpy(to->menu, from->menu, 4 * in->menu);
}

static void try_run(const struct input *in) {
    static struct held before, after, turns;
    const struct words *net = &in->net, *picks = &in->picks;
    struct answer library = {{0, unwritten}, unwritten, unwritten}, reference = {{0, 0}, 0, 0};
    size_t marked = in->marking.length < in->buffer ? in->marking.length : in->buffer;
    fill_words(before.buffer, in->buffer);
    memcpy(before.buffer, in->marking.at, 4 * marked);
    fill_words(before.spare, in->spare);
    fill_words(before.menu, in->menu);
    copy_held(in, &after, &before);

    uint32_t *n = place(&net_buffer, net->at, 4 * net->length), *p = place(&picks_buffer, picks->at, 4 * picks->length);
    uint32_t *buffer = place(&run_buffer, before.buffer, 4 * in->buffer), *spare = place(&spare_buffer, before.spare, 4 * in->spare);
    uint32_t *menu = place(&menu_buffer, before.menu, 4 * in->menu);
    set_fence(buffer);
    set_fence(spare);
    set_fence(menu);
    library.refusal.number = gimletlemon_run(n, net->length, in->budget, buffer, in->buffer, in->m, spare, in->spare, menu, in->menu, p, picks->length,
                                             &library.second, &library.number, &library.refusal.position);
    reference.refusal = ref_run(net->at, net->length, in->budget, after.buffer, in->buffer, in->m, after.spare, in->spare, after.menu, in->menu,
                                picks->at, picks->length, &reference.second, &reference.number);
    if (!agree(RUN, library, reference)) fail_run(in, &before);
    if (!same_held(in, buffer, spare, menu, &after) || !fence_kept(buffer) || !fence_kept(spare) || !fence_kept(menu)) {
        differs(RUN, "a buffer", library, reference);
        print_words("library's buffer", buffer, in->buffer);
        print_words("reference's buffer", after.buffer, in->buffer);
        print_words("library's spare", spare, in->spare);
        print_words("library's menu", menu, in->menu);
        fail_run(in, &before);
    }
    if (!kept(n, net->at, 4 * net->length) || !kept(p, picks->at, 4 * picks->length)) {
        differs(RUN, "the words lent", library, reference);
        fail_run(in, &before);
    }
    picks_done += reference.second;
    if (reference.second > longest) longest = reference.second;
    stopped_later += reference.refusal.number != 0 && reference.second > 0;
    if ((reference.refusal.number > 0 && reference.refusal.number < 10) || picks->length > BY_TURNS) return;
    copy_held(in, &turns, &before);
    struct answer turned = run_by_turns(in, &turns);
    by_turns++;
    if (turned.refusal.number == reference.refusal.number && turned.number == reference.number && turned.second == reference.second &&
        same_held(in, after.buffer, after.spare, after.menu, &turns))
        return;
    differs(RUN, "what menu and fire by turns give", turned, reference);
    fail_run(in, &before);
}

/* ── Picks ── */

/* what the picks of a run need: the most tries of a menu, words of a menu, and words of a marking after a pick */
struct need {
    uint32_t tries;
    size_t menu, length;
};

static uint32_t pick_word(uint32_t transition, uint64_t index) { return 0xD0000000u | transition << 14 | (uint32_t)index; }

/* a few picks behind the one that ends the run */
static void more_picks(struct words *picks, unsigned transitions) {
    for (uint64_t k = random_below(3); k > 0; k--) picks->at[picks->length++] = pick_word((uint32_t)random_below(transitions), random_below(3));
}

/* Picks that a run from the marking fires, at most `most`, and for about every third list one that it refuses and some behind it. */
static struct need draw_picks(const struct words *net, const struct words *marking, size_t most, struct words *picks) {
    static uint32_t now[MOST_WORDS], next[MOST_WORDS], menu[MENU_ROOM];
    static struct net read;
    struct need need = {0, 0, 0};
    size_t length = marking->length, end;
    picks->length = 0;
    if (ref_read_net(net->at, net->length, &read, &end).number != 0 || length > MOST_WORDS) return need;
    memcpy(now, marking->at, 4 * length);
    for (unsigned misses = 0; picks->length < most && misses < 6;) {
        uint32_t transition = (uint32_t)random_below(read.transitions);
        unsigned variables = read.transition[transition].variables;
        uint64_t bindings, tries, words;
        misses++;
        if (ref_menu(net->at, net->length, transition, now, length, 2000, menu, MENU_ROOM, &bindings, &tries).number != 0) continue;
        if (bindings == 0) continue;
        uint64_t index = random_below(random_below(2) == 0 && bindings > 3 ? 3 : bindings);
        struct refusal r = ref_fire(net->at, net->length, transition, now, length, menu + index * variables, variables, next, MOST_WORDS, &words);
        if (r.number != 0 && random_below(3 + most / 20) != 0) continue;
        picks->at[picks->length++] = pick_word(transition, index);
        if (r.number == 0 && random_below(20 + most) == 0) { /* an index that the menu has not; what it needs still counts */
            picks->at[picks->length - 1] = pick_word(transition, random_below(4) == 0 ? 16383 : bindings);
            r.number = bindings < 16384 ? 12 : 0;
        }
        if (tries > need.tries) need.tries = (uint32_t)tries;
        if (bindings * variables > need.menu) need.menu = bindings * variables;
        if (r.number != 0) {
            more_picks(picks, read.transitions);
            break;
        }
        memcpy(now, next, 4 * words);
        length = words;
        if (length > need.length) need.length = length;
        misses = 0;
    }
    return need;
}

/* ── Rounds ── */

static struct input input;

static size_t longer(size_t a, size_t b) { return a > b ? a : b; }

/* Lengths and a budget that suffice by some words and tries. */
static void suffice(const struct need *need, size_t more) {
    input.m = input.marking.length;
    input.budget = need->tries + (uint32_t)more;
    input.buffer = longer(input.m, need->length) + more;
    input.spare = need->length + more;
    input.menu = need->menu + more;
}

/* Each of budget and lengths short by one or more, the others sufficient. */
static void try_short(const struct need *need) {
    suffice(need, 0);
    try_run(&input);
    suffice(need, 1 + random_below(20));
    try_run(&input);
    suffice(need, random_below(3));
    if (need->tries > 0) input.budget = need->tries - 1;
    try_run(&input);
    suffice(need, random_below(3));
    if (need->menu > 0) input.menu = need->menu - 1;
    try_run(&input);
    suffice(need, random_below(3));
    if (need->length > 0) input.spare = need->length - 1;
    try_run(&input);
    suffice(need, random_below(3));
    if (need->length > input.m) input.buffer = need->length - 1;
    try_run(&input);
    suffice(need, 0); /* several at once: the lowest number goes first, at the first pick that any of them stops */
    if (need->tries > 0) input.budget -= (uint32_t)random_below(2);
    if (need->menu > 0) input.menu -= random_below(2);
    if (need->length > 0) input.spare -= random_below(2);
    try_run(&input);
    suffice(need, 0);
    input.budget = (uint32_t)random_below(need->tries + 2);
    input.menu = random_below(need->menu + 2);
    input.spare = random_below(need->length + 2);
    try_run(&input);
    suffice(need, 0);
    input.spare = random_below(2);
    input.menu = random_below(2) == 0 ? 0 : need->menu;
    try_run(&input);
}

static void copy_words(struct words *to, const struct words *from) {
    to->length = from->length;
    memcpy(to->at, from->at, 4 * from->length);
}

/* One or two parts of good input damaged. */
static void try_damaged(const struct need *need) {
    static struct words net, marking, picks;
    copy_words(&net, &input.net);
    copy_words(&marking, &input.marking);
    copy_words(&picks, &input.picks);
    for (unsigned k = 0; k < 8; k++) {
        copy_words(&input.net, &net);
        copy_words(&input.marking, &marking);
        copy_words(&input.picks, &picks);
        suffice(need, random_below(4));
        switch (k) {
        case 0: damage(&input.net); break;
        case 1: damage_plan(&input.net); break;
        case 2: damage(&input.marking); input.m = input.marking.length; break;
        case 3: damage(&input.picks); break;
        case 4: damage_pick(&input.picks); break;
        case 5: input.m = random_below(4) == 0 ? SIZE_MAX - random_below(2) : input.buffer + 1 + random_below(3); break;
        case 6: input.m = random_below(input.buffer + 3); break;
        default: /* two or more: which one is told first */
            for (unsigned times = 2; times > 0; times--) damage_pick(&input.picks);
            if (random_below(2) == 0) damage(&input.picks);
            if (random_below(2) == 0) damage(&input.marking);
            if (random_below(3) == 0) input.m = input.buffer + 1;
            if (random_below(4) == 0) damage(&input.net);
            break;
        }
        try_run(&input);
    }
}

/* A pick of a binding whose outputs meet counts near the limit, have no value or leave their places; which of 14, 15 and 16 is told first. */
static void situation_run(enum taste taste) {
    static uint32_t menu[MENU_ROOM];
    static struct words binding;
    static struct net read;
    size_t end;
    uint64_t bindings, tries;
    if (random_below(2) == 0) random_net(&input.net, 0);
    else random_run(taste, &input.net, &input.marking);
    if (ref_read_net(input.net.at, input.net.length, &read, &end).number != 0) return;
    for (unsigned draws = 0; draws < 8; draws++) {
        uint32_t transition = (uint32_t)random_below(read.transitions);
        unsigned variables = read.transition[transition].variables;
        random_situation(&read, transition, &input.marking, &binding);
        if (ref_menu(input.net.at, input.net.length, transition, input.marking.at, input.marking.length, 3000, menu, MENU_ROOM, &bindings, &tries).number != 0) continue;
        if (bindings == 0) continue;
        uint64_t index = 0;
        while (index < bindings && !kept(menu + index * variables, binding.at, 4 * variables)) index++;
        if (index == bindings) continue;
        input.picks.length = 2;
        input.picks.at[0] = pick_word(transition, index);
        input.picks.at[1] = pick_word(transition, 0);
        suffice(&(struct need){(uint32_t)tries, bindings * variables, input.marking.length}, 0);
        input.spare += random_below(6);
        input.buffer += random_below(6);
        try_run(&input);
    }
}

void round_runs(enum taste taste, size_t most_picks) {
    struct need need = {0, 0, 0};
    for (unsigned draws = 0; draws < 6; draws++) { /* a few draws for a run of some picks */
        random_run(taste, &input.net, &input.marking);
        need = draw_picks(&input.net, &input.marking, random_below(10) == 0 ? random_below(3) : 1 + random_below(most_picks), &input.picks);
        if (input.picks.length > 3 + random_below(6)) break;
    }
    if (input.marking.length > MOST_WORDS || ref_check(input.net.at, input.net.length).number != 0) return;
    try_short(&need);
    try_damaged(&need);
    situation_run(taste);
}

/* A marking of about 16,384 words; a token moves to a colour that has none, so that the marking grows past its room or, where there is more, the limit. */
static void long_marking(void) {
    static struct words binding;
    struct need need = {16384, MOST_ENTRIES, 0};
    for (unsigned k = 0; k < 4; k++) {
        long_situation(&input.net, &input.marking, &binding);
        input.picks.length = 0;
        for (unsigned i = 0; i < 3; i++) input.picks.at[input.picks.length++] = pick_word(0, random_below(random_below(2) == 0 ? 4 : 8300));
        suffice(&need, 0);
        input.spare = MOST_WORDS - 2 + random_below(16);
        input.buffer = longer(input.m, MOST_WORDS - 2 + random_below(16));
        try_run(&input);
    }
    input.budget = 16383;
    try_run(&input);
    damage(&input.marking);
    suffice(&need, 0);
    input.spare = input.buffer = longer(input.marking.length, MOST_WORDS);
    try_run(&input);
}

/* A net of about 16,384 words or of more, and damaged picks with it. */
static void long_net(void) {
    struct need need = {0, 0, 2};
    sized_net(&input.net, MOST_WORDS - 2 + random_below(5));
    input.marking.length = 2;
    input.marking.at[0] = ref_token_word(0, 1 + (unsigned)random_below(20));
    input.marking.at[1] = ref_value_word((int32_t)random_below(5));
    input.picks.length = 0;
    for (unsigned k = 0; k < 8; k++) input.picks.at[input.picks.length++] = pick_word((uint32_t)random_below(64), 0);
    suffice(&need, 10);
    try_run(&input);
    damage_pick(&input.picks);
    try_run(&input);
}

/* A menu of 16,383 to 16,385 bindings, picked at its end and with a buffer that just suffices. */
static void wide_menus(unsigned kind) {
    static struct net read;
    size_t end;
    wide_menu(kind, &input.net, &input.marking);
    if (ref_read_net(input.net.at, input.net.length, &read, &end).number != 0) exit(2);
    unsigned variables = read.transition[0].variables;
    for (unsigned k = 0; k < 2; k++) {
        input.picks.length = 1 + random_below(2);
        input.picks.at[0] = pick_word(0, k == 0 ? 16382 : 16383);
        input.picks.at[1] = pick_word(0, 0);
        input.m = input.marking.length;
        input.budget = 1000000;
        input.buffer = input.spare = longer(input.m, 2) + random_below(2);
        input.menu = 16383 * variables - random_below(2) + random_below(2) * variables;
        try_run(&input);
    }
}

void round_long_runs(unsigned kind) {
    if (kind % 2 == 0) long_marking();
    else wide_menus(kind / 2);
    long_net();
}

/* ── What was met ── */

bool print_runs(bool all) {
    static const unsigned answers[] = {0, 1, 2, 3, 4, 5, 6, 7, 9, 10, 11, 12, 14, 15, 16};
    bool good = true;
    printf("runs: %" PRIu64 " picks done, the longest run %" PRIu64 ", %" PRIu64 " stopped after their first pick, ", picks_done, longest, stopped_later);
    printf("%" PRIu64 " also held against menu and fire by turns\n", by_turns);
    for (size_t i = 0; i < sizeof answers / sizeof answers[0]; i++)
        if (all && met[RUN][answers[i]] == 0) {
            printf("no run was answered with %u\n", answers[i]);
            good = false;
        }
    return good;
}
