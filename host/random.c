/* See random.h. */
#include "random.h"

#include <stdlib.h>
#include <string.h>

static uint64_t state;

void random_seed(uint64_t seed) { state = seed; }

/* splitmix64 */
static uint64_t random_number(void) {
    uint64_t z = state += 0x9E3779B97F4A7C15u;
    z = (z ^ z >> 30) * 0xBF58476D1CE4E5B9u;
    z = (z ^ z >> 27) * 0x94D049BB133111EBu;
    return z ^ z >> 31;
}

uint64_t random_below(uint64_t n) { return random_number() % n; }

static int32_t random_between(int32_t low, int32_t high) { return low + (int32_t)random_below((uint64_t)((int64_t)high - low + 1)); }

static int one_in(unsigned n) { return random_below(n) == 0; }

static void push(struct words *w, uint32_t word) {
    if (w->length < ROOM) w->at[w->length++] = word;
}

/* ── Nets ── */

/* what an expression is, for plans: a constant of at least 1, a variable alone (else -1), and all its variables */
struct shape {
    int positive, alone;
    unsigned variables;
};

static uint32_t constant(int32_t v) { return 0x70000000u | ((uint32_t)v & 16383u); }

/* mostly small numbers, so that counts and ranges are met; sometimes any */
static int32_t random_value(void) { return one_in(30) ? random_between(-8192, 8191) : one_in(6) ? random_between(-3, 20) : random_between(0, 4); }

/* an expression of at most so many words; answers how many */
static unsigned random_expression(struct words *w, unsigned variables, unsigned most, struct shape *s) {
    struct shape a = {0, -1, 0}, b = {0, -1, 0};
    s->positive = 0;
    s->alone = -1;
    s->variables = 0;
    if (most >= 3 && one_in(4)) {
        unsigned sort = (unsigned)random_below(4), left;
        push(w, 0x90000000u | sort);
        left = random_expression(w, variables, most - 2, &a);
        left += random_expression(w, variables, most - 1 - left, &b);
        s->variables = a.variables | b.variables;
        return left + 1;
    }
    if (most >= 2 && one_in(12)) {
        push(w, 0x90000004u);
        unsigned left = random_expression(w, variables, most - 1, &a);
        s->variables = a.variables;
        return left + 1;
    }
    if (variables > 0 && !one_in(3)) {
        s->alone = (int)random_below(variables);
        s->variables = 1u << s->alone;
        push(w, 0x80000000u | (unsigned)s->alone);
    } else {
        int32_t v = random_value();
        s->positive = v >= 1;
        push(w, constant(v));
    }
    return 1;
}

static void random_range(struct words *w) {
    int32_t low = one_in(20) ? random_between(-8192, 8191) : random_between(-2, 3);
    int32_t high = one_in(20) ? random_between(low, 8191) : low + random_between(0, 12);
    if (high > 8191) high = 8191;
    push(w, 0x30000000u | ((uint32_t)low & 16383u) << 14 | ((uint32_t)high & 16383u));
}

/* an arc; answers the variables that a match of it can bind */
static unsigned random_arc(struct words *w, const unsigned *widths, unsigned places, unsigned variables, int large) {
    unsigned place = (unsigned)random_below(places), lone = 0;
    struct shape c, e;
    push(w, 0x50000000u | place);
    if (one_in(2)) {
        int32_t v = random_between(1, 3);
        push(w, constant(v));
        c.positive = 1;
    } else {
        random_expression(w, variables, large ? 15 : 1 + (unsigned)random_below(7), &c);
    }
    for (unsigned i = 0; i < widths[place]; i++) {
        random_expression(w, variables, large ? 15 : 1 + (unsigned)random_below(7), &e);
        if (e.alone >= 0) lone |= 1u << e.alone;
    }
    return c.positive ? lone : 0;
}

/* what plans need of a transition: its numbers, the variables that matches bind, and its guard */
struct outline {
    unsigned variables, inputs, conjuncts, matches[8], relation[8];
    struct shape left[8], right[8];
};

/* the variables that an element binds; none where it does not fit */
static unsigned element_binds(const struct outline *t, unsigned sort, unsigned k, unsigned bound) {
    unsigned set = 0;
    if (sort == 0 && k < t->inputs) set = t->matches[k] & ~bound;
    if (sort == 1 && k < t->conjuncts && t->relation[k] == 0) {
        const struct shape *left = &t->left[k], *right = &t->right[k];
        if (left->alone >= 0 && (right->variables & ~bound) == 0) set = 1u << left->alone & ~bound;
        if (set == 0 && right->alone >= 0 && (left->variables & ~bound) == 0) set = 1u << right->alone & ~bound;
    }
    if (sort == 2 && k < t->variables) set = 1u << k & ~bound;
    return set;
}

static void random_transition(struct words *w, const unsigned *widths, unsigned places, int large) {
    unsigned v = (unsigned)random_below(one_in(8) || large ? 9 : 4), i = (unsigned)random_below(one_in(8) || large ? 9 : 4);
    unsigned o = (unsigned)random_below(one_in(8) || large ? 9 : 4), g = (unsigned)random_below(one_in(8) || large ? 9 : 3);
    unsigned elements = 0, bound = 0, all = (1u << v) - 1;
    struct outline t = {.variables = v, .inputs = i, .conjuncts = g};
    size_t at = w->length;
    push(w, 0);
    for (unsigned k = 0; k < v; k++) random_range(w);
    for (unsigned k = 0; k < i; k++) t.matches[k] = random_arc(w, widths, places, v, large);
    for (unsigned k = 0; k < o; k++) random_arc(w, widths, places, v, large);
    for (unsigned k = 0; k < g; k++) {
        t.relation[k] = (unsigned)random_below(4);
        push(w, 0x60000000u | t.relation[k]);
        random_expression(w, v, large ? 15 : 1 + (unsigned)random_below(7), &t.left[k]);
        random_expression(w, v, large ? 15 : 1 + (unsigned)random_below(7), &t.right[k]);
    }
    while (bound != all) { /* elements are drawn until one fits */
        unsigned sort = (unsigned)random_below(3), k = (unsigned)random_below(8), set = element_binds(&t, sort, k, bound);
        if (set == 0) continue;
        bound |= set;
        elements++;
        push(w, 0xA0000000u | sort << 8 | k);
    }
    if (at < ROOM) w->at[at] = 0x40000000u | elements << 16 | g << 12 | o << 8 | i << 4 | v;
}

void random_net(struct words *net, int large) {
    unsigned places = 1 + (unsigned)random_below(large || one_in(20) ? 64 : 4), transitions = 1 + (unsigned)random_below(large || one_in(20) ? 64 : 3);
    unsigned widths[64];
    net->length = 0;
    push(net, 0x10000000u | places << 8 | transitions);
    for (unsigned i = 0; i < places; i++) {
        widths[i] = 1 + (unsigned)random_below(one_in(4) ? 4 : 2);
        push(net, 0x20000000u | widths[i]);
        for (unsigned k = 0; k < widths[i]; k++) random_range(net);
    }
    for (unsigned i = 0; i < transitions; i++) random_transition(net, widths, places, large && one_in(2));
}

/* an expression of exactly so many words */
static void sized_expression(struct words *w, unsigned length) {
    if (length > 2) push(w, 0x90000000u | (unsigned)random_below(4));
    if (length == 2) push(w, 0x90000004u);
    push(w, constant(random_value()));
    if (length > 2) sized_expression(w, length - 2);
}

void sized_net(struct words *net, size_t length) {
    enum { EXPRESSIONS = 64 * (16 * 2 + 8 * 2), LEAST = 3 + 64 * (1 + 16 + 8) + EXPRESSIONS };
    size_t more = length - LEAST, left = EXPRESSIONS;
    net->length = 0;
    push(net, 0x10000140u);
    push(net, 0x20000001u);
    push(net, 0x30000000u | 4);
    for (unsigned t = 0; t < 64; t++) {
        push(net, 0x40008880u);
        for (unsigned k = 0; k < 24; k++) {
            push(net, k < 16 ? 0x50000000u : 0x60000000u | (unsigned)random_below(4));
            for (unsigned e = 0; e < 2; e++) { /* what is still to be added is spread over the expressions that are left */
                size_t extra = more / left;
                more -= extra;
                left--;
                sized_expression(net, 1 + (unsigned)extra);
            }
        }
    }
}

/* ── Markings and bindings ── */

static int order(const struct entry *a, const struct entry *b) {
    if (a->place != b->place) return a->place < b->place ? -1 : 1;
    for (unsigned i = 0; i < 4; i++)
        if (a->colour[i] != b->colour[i]) return a->colour[i] < b->colour[i] ? -1 : 1;
    return 0;
}

static int order_of(const void *a, const void *b) { return order(a, b); }

/* the words of entries, sorted, equal ones left out */
static void push_entries(const struct net *net, struct entry *es, size_t n, struct words *marking) {
    qsort(es, n, sizeof *es, order_of);
    marking->length = 0;
    for (size_t i = 0; i < n; i++) {
        if (i > 0 && order(&es[i - 1], &es[i]) == 0) continue;
        push(marking, ref_token_word(es[i].place, (unsigned)es[i].count));
        for (unsigned k = 0; k < net->place[es[i].place].width; k++) push(marking, ref_value_word(es[i].colour[k]));
    }
}

static int32_t in_range(const struct range *r) { return random_between(r->low, r->high); }

static int32_t in_range_low(const struct range *r) { return random_between(r->low, r->high - r->low > 6 ? r->low + 6 : r->high); }

static void random_entry(const struct net *net, struct entry *e, int spread) {
    memset(e, 0, sizeof *e);
    e->place = (unsigned)random_below(net->places);
    e->count = one_in(40) ? MOST_COUNT - (int64_t)random_below(3) : random_between(1, 5);
    for (unsigned k = 0; k < net->place[e->place].width; k++)
        e->colour[k] = spread ? in_range(&net->place[e->place].ranges[k]) : in_range_low(&net->place[e->place].ranges[k]);
}

static int fits(const struct net *net, const struct entry *e) {
    for (unsigned k = 0; k < net->place[e->place].width; k++)
        if (e->colour[k] < net->place[e->place].ranges[k].low || e->colour[k] > net->place[e->place].ranges[k].high) return 0;
    return 1;
}

void random_marking(const struct net *net, size_t words, struct words *marking) {
    static struct entry es[MOST_WORDS];
    size_t n = 0, length = 0;
    while (length < words && n < MOST_WORDS) {
        random_entry(net, &es[n], 1);
        length += 1 + net->place[es[n].place].width;
        n++;
    }
    push_entries(net, es, n, marking);
}

/* a binding; a few draws for one under which the guard holds */
static void draw_values(const struct transition *t, int32_t *values) {
    int holds = 0;
    for (unsigned tries = 0; tries < 20 && !holds; tries++) {
        holds = 1;
        for (unsigned k = 0; k < t->variables; k++) values[k] = in_range_low(&t->range[k]);
        for (unsigned k = 0; k < t->conjuncts; k++) {
            int32_t a, b;
            if (!ref_value(&t->guard[k].left, values, &a) || !ref_value(&t->guard[k].right, values, &b)) holds = 0;
            else if (t->guard[k].relation == 0 ? a != b : t->guard[k].relation == 1 ? a == b : t->guard[k].relation == 2 ? a >= b : a > b) holds = 0;
        }
    }
}

/* what the inputs take, added to entries by colour; answers how many entries there are then */
static size_t add_inputs(const struct net *net, const struct transition *t, const int32_t *values, struct entry *es, size_t n) {
    struct entry flow;
    for (unsigned k = 0; k < t->inputs; k++) {
        memset(&flow, 0, sizeof flow);
        if (!ref_flow(net, &t->input[k], values, &flow) || flow.count < 1 || !fits(net, &flow)) continue;
        size_t i = 0;
        while (i < n && order(&es[i], &flow) != 0) i++;
        if (i == n) es[n++] = flow;
        else es[i].count += flow.count;
    }
    return n;
}

void random_situation(const struct net *net, unsigned transition, struct words *marking, struct words *binding) {
    const struct transition *t = &net->transition[transition];
    struct entry es[64], flow;
    int32_t values[8];
    draw_values(t, values);
    binding->length = 0;
    for (unsigned k = 0; k < t->variables; k++) push(binding, ref_value_word(values[k]));
    /* what the inputs take, now and then one too few; outputs near the largest count; others */
    size_t n = add_inputs(net, t, values, es, 0);
    for (size_t i = 0; i < n; i++) {
        es[i].count += one_in(6) ? -1 : one_in(2) ? 0 : (int64_t)random_below(4);
        if (es[i].count < 1) es[i].count = 1;
        if (es[i].count > MOST_COUNT) es[i].count = MOST_COUNT;
    }
    for (unsigned k = 0; k < t->outputs; k++) {
        memset(&flow, 0, sizeof flow);
        if (!one_in(3) || !ref_flow(net, &t->output[k], values, &flow) || flow.count < 1 || !fits(net, &flow)) continue;
        size_t i = 0;
        while (i < n && order(&es[i], &flow) != 0) i++;
        if (i < n) {
            if (one_in(3)) es[i].count = MOST_COUNT - (int64_t)random_below(3);
            continue;
        }
        flow.count = one_in(2) ? MOST_COUNT - (int64_t)random_below(4) : random_between(1, 5);
        es[n++] = flow;
    }
    for (unsigned k = (unsigned)random_below(12); k > 0; k--) {
        random_entry(net, &es[n], 0);
        size_t i = 0;
        while (i < n && order(&es[i], &es[n]) != 0) i++;
        if (i == n) n++;
    }
    push_entries(net, es, n, marking);
}

void long_situation(struct words *net, struct words *marking, struct words *binding) {
    int32_t entries = MOST_ENTRIES - random_between(0, 2) + random_between(0, 2);
    const uint32_t words[] = {0x10000101u, 0x20000001u, 0x38001FFFu, 0x40010111u, 0x38001FFFu, 0x50000000u, constant(1), 0x80000000u,
                              0x50000000u, constant(random_between(1, 3)), constant(random_between(8000, 8191)), 0xA0000200u};
    net->length = marking->length = binding->length = 0;
    for (size_t i = 0; i < sizeof words / sizeof words[0]; i++) push(net, words[i]);
    for (int32_t i = 0; i < entries; i++) {
        push(marking, ref_token_word(0, (unsigned)random_between(1, 3)));
        push(marking, ref_value_word(i - 8192));
    }
    if (one_in(3)) marking->length--;
    push(binding, ref_value_word(random_between(-8192, 10)));
}

/* ── Menus: narrow ranges, so that colours and values meet, about a middle that now and then is at the end of all values ── */

static int32_t near(int32_t middle, int32_t low, int32_t high) {
    int32_t v = middle + random_between(low, high);
    return v < -8192 ? -8192 : v > 8191 ? 8191 : v;
}

static void narrow_range(struct words *w, int32_t middle, int32_t most) {
    int32_t low = near(middle, -3, 1), high = low + random_between(0, most);
    if (one_in(60)) low = random_between(-8192, low);
    if (high > 8191) high = 8191;
    push(w, 0x30000000u | ((uint32_t)low & 16383u) << 14 | ((uint32_t)high & 16383u));
}

/* a component or a side of a conjunct: mostly a variable alone, or a constant, or an expression with operators */
static void menu_expression(struct words *w, int32_t middle, unsigned variables, struct shape *s) {
    unsigned draw = (unsigned)random_below(20);
    s->positive = 0;
    s->alone = -1;
    s->variables = 0;
    if (middle != 0 && one_in(3)) draw = 17;
    if (variables > 0 && draw < 13) {
        s->alone = (int)random_below(variables);
        s->variables = 1u << s->alone;
        push(w, 0x80000000u | (unsigned)s->alone);
    } else if (draw < 16) {
        push(w, constant(near(middle, -3, 4)));
    } else if (variables > 0 && draw < 18) { /* a variable and a little more or less */
        unsigned k = (unsigned)random_below(variables);
        s->variables = 1u << k;
        push(w, 0x90000000u | (unsigned)random_below(2));
        push(w, 0x80000000u | k);
        push(w, constant(random_between(0, 3)));
    } else {
        random_expression(w, variables, 1 + (unsigned)random_below(7), s);
    }
}

static unsigned menu_arc(struct words *w, int32_t middle, const unsigned *widths, unsigned places, unsigned variables) {
    unsigned place = (unsigned)random_below(places), lone = 0, draw = (unsigned)random_below(20);
    struct shape c = {0, -1, 0}, e;
    push(w, 0x50000000u | place);
    if (draw < 13) {
        c.positive = 1;
        push(w, constant(random_between(1, 2)));
    } else if (draw < 15) {
        push(w, constant(0));
    } else if (draw < 17 && variables > 0) {
        push(w, 0x80000000u | (unsigned)random_below(variables));
    } else {
        random_expression(w, variables, 1 + (unsigned)random_below(5), &c);
    }
    for (unsigned i = 0; i < widths[place]; i++) {
        menu_expression(w, middle, variables, &e);
        if (e.alone >= 0) lone |= 1u << e.alone;
    }
    return c.positive ? lone : 0;
}

/* Elements of a plan: the sort that is liked best and fits, with any number that fits. Answers how many. */
static unsigned menu_plan(struct words *w, const struct outline *t, enum taste taste) {
    static const unsigned liking[PLAN_TASTES][3] = {[MATCHES_FIRST] = {0, 1, 2}, [SOLVES_FIRST] = {1, 0, 2}, [RANGES_ONLY] = {2, 2, 2}};
    unsigned elements = 0, bound = 0, all = (1u << t->variables) - 1;
    while (bound != all) {
        unsigned sort = 2, fitting = 0, shift = (unsigned)random_below(3);
        for (unsigned i = 0; i < 3 && fitting == 0; i++) {
            sort = taste == ANY_PLAN ? (i + shift) % 3 : liking[taste][i];
            for (unsigned k = 0; k < 8; k++) fitting += element_binds(t, sort, k, bound) != 0;
        }
        unsigned which = (unsigned)random_below(fitting), k = 0;
        for (;; k++)
            if (element_binds(t, sort, k, bound) != 0 && which-- == 0) break;
        bound |= element_binds(t, sort, k, bound);
        elements++;
        push(w, 0xA0000000u | sort << 8 | k);
    }
    return elements;
}

/* What a transition puts: nothing, as for menus; or, for runs, what any arcs put, or what arcs put of which most give back what an input arc takes, so
   that runs do not soon end for want of tokens. */
enum outputs { NO_OUTPUTS, ANY_OUTPUTS, MOSTLY_BACK };

static void menu_transition(struct words *w, int32_t middle, const unsigned *widths, unsigned places, enum taste taste, enum outputs outputs) {
    unsigned v = one_in(10) ? (unsigned)random_below(9) : one_in(12) ? 0 : 1 + (unsigned)random_below(3);
    unsigned i = one_in(10) ? (unsigned)random_below(9) : 1 + (unsigned)random_below(3);
    unsigned o = outputs == NO_OUTPUTS ? 0 : outputs == MOSTLY_BACK ? i : (unsigned)random_below(one_in(10) ? 9 : 5);
    unsigned g = (unsigned)random_below(one_in(15) ? 9 : taste == SOLVES_FIRST ? 4 : 3);
    struct outline t = {.variables = v, .inputs = i, .conjuncts = g};
    size_t at = w->length, arcs[9];
    push(w, 0);
    for (unsigned k = 0; k < v; k++) narrow_range(w, middle, v > 3 ? 2 : 6);
    for (unsigned k = 0; k < i; k++) {
        arcs[k] = w->length;
        t.matches[k] = menu_arc(w, middle, widths, places, v);
    }
    arcs[i] = w->length;
    for (unsigned k = 0; k < o; k++) {
        if (outputs == MOSTLY_BACK && !one_in(4))
            for (size_t a = arcs[k]; a < arcs[k + 1]; a++) push(w, w->at[a]);
        else menu_arc(w, middle, widths, places, v);
    }
    for (unsigned k = 0; k < g; k++) {
        t.relation[k] = one_in(2) || taste == SOLVES_FIRST ? 0 : (unsigned)random_below(4);
        push(w, 0x60000000u | t.relation[k]);
        menu_expression(w, middle, v, &t.left[k]);
        menu_expression(w, middle, v, &t.right[k]);
    }
    unsigned elements = menu_plan(w, &t, taste);
    if (at < ROOM) w->at[at] = 0x40000000u | elements << 16 | g << 12 | o << 8 | i << 4 | v;
}

/* any value of a narrow range; of all values one near either end, where a sum of 14 bits would come round */
static int32_t menu_colour(const struct range *r, int32_t middle) {
    if (middle == 0 || r->high - r->low < 16383) return in_range(r);
    return near(one_in(2) ? -8190 : 8189, -2, 2);
}

static void menu_net(struct words *net, int32_t middle, unsigned transitions, enum taste taste, enum outputs outputs) {
    unsigned places = 1 + (unsigned)random_below(3), widths[64];
    net->length = 0;
    push(net, 0x10000000u | places << 8 | transitions);
    for (unsigned i = 0; i < places; i++) {
        widths[i] = 1 + (unsigned)random_below(one_in(4) ? 4 : 2);
        push(net, 0x20000000u | widths[i]);
        for (unsigned k = 0; k < widths[i]; k++) {
            if (middle != 0 && one_in(2)) push(net, 0x38001FFFu);
            else narrow_range(net, middle - 2, 9);
        }
    }
    for (unsigned i = 0; i < transitions; i++) menu_transition(net, middle, widths, places, taste, outputs);
}

/* what some bindings of a transition take, other colours, and now and then an empty place */
static void menu_marking(const struct net *read, unsigned transition, int32_t middle, int near_limit, struct words *marking) {
    struct entry es[256];
    size_t n = 0;
    for (unsigned i = (unsigned)random_below(7); i > 0; i--) {
        int32_t values[8];
        draw_values(&read->transition[transition], values);
        n = add_inputs(read, &read->transition[transition], values, es, n);
    }
    for (size_t i = 0; i < n; i++)
        if (es[i].count > MOST_COUNT) es[i].count = MOST_COUNT;
    for (unsigned i = 0; i < read->places; i++) {
        unsigned colours = one_in(8) ? 0 : 1 + (unsigned)random_below(one_in(8) ? 60 : 14);
        for (unsigned k = 0; k < colours; k++, n++) {
            memset(&es[n], 0, sizeof es[n]);
            es[n].place = i;
            es[n].count = random_between(1, 4);
            for (unsigned c = 0; c < read->place[i].width; c++) es[n].colour[c] = menu_colour(&read->place[i].ranges[c], middle);
        }
    }
    if (near_limit)
        for (size_t i = 0; i < n; i++)
            if (one_in(2)) es[i].count = MOST_COUNT - random_between(0, 6);
    if (one_in(10)) { /* an empty place */
        unsigned place = (unsigned)random_below(read->places);
        size_t left = 0;
        for (size_t i = 0; i < n; i++)
            if (es[i].place != place) es[left++] = es[i];
        n = left;
    }
    push_entries(read, es, n, marking);
}

void random_menu(enum taste taste, struct words *net, struct words *marking, uint32_t *transition) {
    static struct net read;
    unsigned transitions = 1 + (unsigned)random_below(2);
    int32_t middle = one_in(8) ? (one_in(2) ? -8190 : 8188) : 0;
    size_t end;
    marking->length = 0;
    menu_net(net, middle, transitions, taste, NO_OUTPUTS);
    *transition = (uint32_t)random_below(transitions);
    if (ref_read_net(net->at, net->length, &read, &end).number != 0) return;
    menu_marking(&read, *transition, middle, 0, marking);
}

void random_run(enum taste taste, struct words *net, struct words *marking) {
    static struct net read;
    unsigned transitions = 1 + (unsigned)random_below(4);
    int32_t middle = one_in(8) ? (one_in(2) ? -8190 : 8188) : 0;
    size_t end;
    marking->length = 0;
    menu_net(net, middle, transitions, taste, one_in(3) ? ANY_OUTPUTS : MOSTLY_BACK);
    if (ref_read_net(net->at, net->length, &read, &end).number != 0) return;
    menu_marking(&read, (unsigned)random_below(transitions), middle, one_in(5), marking);
}

/* Ranges whose product is 16,383, 16,384 or 16,385, all bindings enabled, and a plan that takes the variables in any order. */
static void wide_ranges(unsigned kind, struct words *net, struct words *marking) {
    static const uint16_t sizes[][8] = {{16383}, {16384}, {128, 128}, {127, 129}, {43, 127, 3}, {5461, 3}, {3277, 5}, {8, 16, 16, 8}, {4, 4, 1, 4, 4, 4, 4, 4},
                                        {3, 1, 43, 1, 127}, {5, 29, 113}, {2, 2, 2, 2, 2, 2, 2, 128}};
    const uint16_t *size = sizes[kind % (sizeof sizes / sizeof sizes[0])];
    unsigned v = 0, order[8];
    while (v < 8 && size[v] > 0) v++;
    push(net, 0x10000101u);
    push(net, 0x20000001u);
    push(net, 0x30000000u);
    push(net, 0x40000010u | v << 16 | v);
    for (unsigned k = 0; k < v; k++) {
        int32_t low = random_between(-8192, 8192 - size[k]);
        push(net, 0x30000000u | ((uint32_t)low & 16383u) << 14 | ((uint32_t)(low + size[k] - 1) & 16383u));
        unsigned j = (unsigned)random_below(k + 1);
        order[k] = order[j];
        order[j] = k;
    }
    push(net, 0x50000000u);
    push(net, constant(1));
    push(net, constant(0));
    for (unsigned k = 0; k < v; k++) push(net, 0xA0000200u | order[k]);
    push(marking, ref_token_word(0, 1));
    push(marking, ref_value_word(0));
}

/* One match of (x - x, x), or of (x, x - x), with up to four colours for each x: bindings are found repeatedly. */
static void wide_match(struct words *net, struct words *marking) {
    int32_t values = random_between(1, 1365), low = one_in(2) ? -700 : 0, first = one_in(2);
    const uint32_t head[] = {0x10000101u, 0x20000002u, 0x38001FFFu, 0x38001FFFu, 0x40010011u, 0x38001FFFu, 0x50000000u, constant(1)};
    const uint32_t zero[] = {0x90000001u, 0x80000000u, 0x80000000u};
    for (size_t i = 0; i < sizeof head / sizeof head[0]; i++) push(net, head[i]);
    if (!first) push(net, 0x80000000u);
    for (size_t i = 0; i < 3; i++) push(net, zero[i]);
    if (first) push(net, 0x80000000u);
    push(net, 0xA0000000u);
    for (int32_t i = 0; i < 4 * values; i++) {
        int32_t x = low + (first ? i % values : i / 4), copy = (first ? i / values : i % 4) - 1;
        push(marking, ref_token_word(0, (unsigned)random_between(1, 3)));
        push(marking, ref_value_word(first ? copy : x));
        push(marking, ref_value_word(first ? x : copy));
    }
}

void wide_menu(unsigned kind, struct words *net, struct words *marking) {
    net->length = marking->length = 0;
    if (kind % 3 == 2) wide_match(net, marking);
    else wide_ranges(kind / 3 * 2 + kind % 3, net, marking);
}

/* ── Damage ── */

/* a word of some kind with fields that are small or not */
static uint32_t random_word(void) {
    uint32_t k = (uint32_t)random_below(16) << 28;
    if (one_in(3)) return k | (uint32_t)random_below(1u << 28);
    return k | (uint32_t)random_below(4) << (unsigned)random_below(20) | (uint32_t)random_below(8);
}

void damage(struct words *w) {
    size_t at = w->length > 0 ? random_below(w->length) : 0;
    switch (random_below(w->length > 0 ? 7 : 1)) {
    case 0: /* words after the end */
        for (uint64_t k = 1 + random_below(3); k > 0; k--) push(w, random_word());
        break;
    case 1: w->at[at] ^= 1u << random_below(32); break;
    case 2: w->at[at] = random_word(); break;
    case 3: w->at[at] = (w->at[at] & 0xF0000000u) | (random_word() & 0x0FFFFFFFu); break;
    case 4: w->length = at; break;
    case 5: /* a word less */
        memmove(&w->at[at], &w->at[at + 1], (w->length - at - 1) * sizeof w->at[0]);
        w->length--;
        break;
    default: /* a word more */
        if (w->length == ROOM) break;
        memmove(&w->at[at + 1], &w->at[at], (w->length - at) * sizeof w->at[0]);
        w->at[at] = random_word();
        w->length++;
        break;
    }
}

void damage_pick(struct words *picks) {
    if (picks->length == 0) return;
    uint32_t *word = &picks->at[random_below(picks->length)];
    switch (random_below(3)) {
    case 0: *word ^= 1u << random_below(14); break;
    case 1: *word ^= 1u << (14 + random_below(8)); break;
    default: *word ^= 1u << (22 + random_below(6)); break;
    }
}

void damage_plan(struct words *net) {
    size_t elements = 0, at = 0, which;
    uint32_t word;
    for (size_t i = 0; i < net->length; i++) elements += net->at[i] >> 28 == 0xA;
    if (elements == 0) return;
    which = random_below(elements);
    for (; net->at[at] >> 28 != 0xA || which > 0; at++) which -= net->at[at] >> 28 == 0xA;
    switch (random_below(4)) {
    case 0: /* left out: one less in its TRANSITION */
        memmove(&net->at[at], &net->at[at + 1], (net->length - at - 1) * sizeof net->at[0]);
        net->length--;
        while (net->at[at - 1] >> 28 != 4) at--;
        net->at[at - 1] -= 0x10000u;
        break;
    case 1: /* put after the next one, if that is an element */
        if (at + 1 == net->length || net->at[at + 1] >> 28 != 0xA) break;
        word = net->at[at];
        net->at[at] = net->at[at + 1];
        net->at[at + 1] = word;
        break;
    default: net->at[at] = 0xA0000000u | (uint32_t)random_below(3) << 8 | (uint32_t)(one_in(8) ? random_below(256) : random_below(9)); break;
    }
}
