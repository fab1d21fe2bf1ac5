/*
 * The menu by a search over the plan; see reference.h and reference_search.h. Net and marking are read once into structures; then each try is made,
 * and each binding that the plan arrives at is tested. Those enabled are kept as numbers that rise as bindings rise, and are sorted only where they
 * did not come in order.
 */
#include "reference_search.h"

#include <stdlib.h>

/* ── Colours and bindings as numbers ── */

static uint64_t digit(int32_t value) { return (uint64_t)(value + 8192); }

static bool is_value(int32_t number) { return -8192 <= number && number <= 8191; }

bool ref_colour(const int32_t *components, unsigned width, uint64_t *colour) {
    *colour = 0;
    for (unsigned i = 0; i < width; i++) {
        if (!is_value(components[i])) return false;
        *colour = *colour << 14 | digit(components[i]);
    }
    return true;
}

static int compare(const struct key *a, const struct key *b) {
    if (a->high != b->high) return a->high < b->high ? -1 : 1;
    return a->low < b->low ? -1 : a->low > b->low;
}

static int compare_keys(const void *a, const void *b) { return compare(a, b); }

/* ── Before the search ── */

void ref_index_marking(struct search *s) {
    size_t i = 0;
    for (unsigned place = 0; place < 65; place++) {
        s->first[place] = i;
        for (; i < s->marking.count && s->marking.entries[i].place == place; i++)
            ref_colour(s->marking.entries[i].colour, s->net.place[place].width, &s->colours[i]);
    }
}

/* the variable that an expression is; -1 where it is anything else */
static int alone(const struct expression *e) { return e->nodes[0].kind == NODE_VARIABLE ? (int)e->nodes[0].number : -1; }

static void prepare_match(struct search *s, struct step *step, const struct arc *a, unsigned *bound) {
    step->from = &s->marking.entries[s->first[a->place]];
    step->to = &s->marking.entries[s->first[a->place + 1]];
    step->width = s->net.place[a->place].width;
    for (unsigned i = 0; i < step->width; i++) {
        const struct node *n = &a->components[i].nodes[0];
        struct part *part = &step->parts[i];
        part->sort = PART_LATER;
        part->number = 0;
        if (n->kind == NODE_CONSTANT) {
            part->sort = PART_CONSTANT;
            part->number = n->number;
        }
        if (n->kind == NODE_VARIABLE) { /* bound is also one that stood alone in an earlier component */
            part->sort = *bound >> n->number & 1 ? PART_BOUND : PART_NEW;
            part->number = n->number;
            *bound |= 1u << n->number;
        }
    }
}

/* The plan has been accepted, so every element fits. */
static void prepare(struct search *s) {
    unsigned bound = 0;
    for (unsigned k = 0; k < s->t->elements; k++) {
        const struct element *e = &s->t->plan[k];
        struct step *step = &s->steps[k];
        step->sort = e->sort;
        if (e->sort == 0) {
            prepare_match(s, step, &s->t->input[e->number], &bound);
            continue;
        }
        step->variable = e->number;
        if (e->sort == 1) {
            const struct conjunct *c = &s->t->guard[e->number];
            int left = alone(&c->left);
            bool solves_left = left >= 0 && (bound >> left & 1) == 0;
            step->variable = (unsigned)(solves_left ? left : alone(&c->right));
            step->other = solves_left ? &c->right : &c->left;
        }
        step->range = s->t->range[step->variable];
        bound |= 1u << step->variable;
    }
}

/* ── Enabling ── */

static bool value_of(const struct expression *e, const int32_t *values, int32_t *value) {
    switch (e->nodes[0].kind) {
    case NODE_CONSTANT: *value = e->nodes[0].number; return true;
    case NODE_VARIABLE: *value = values[e->nodes[0].number]; return true;
    default: return ref_value(e, values, value);
    }
}

static bool guard_holds(const struct transition *t, const int32_t *values) {
    for (unsigned i = 0; i < t->conjuncts; i++) {
        int32_t a, b;
        if (!value_of(&t->guard[i].left, values, &a) || !value_of(&t->guard[i].right, values, &b)) return false;
        switch (t->guard[i].relation) {
        case 0: if (a != b) return false; break;
        case 1: if (a == b) return false; break;
        case 2: if (a >= b) return false; break;
        default: if (a > b) return false; break;
        }
    }
    return true;
}

static int64_t count_marked(const struct search *s, unsigned place, uint64_t colour) {
    size_t low = s->first[place], count = s->first[place + 1] - low;
    if (count == 0) return 0;
    while (count > 1) { /* the colour is one of `count` from `low` on, or is not marked */
        size_t half = count / 2;
        low = s->colours[low + half] <= colour ? low + half : low;
        count -= half;
    }
    return s->colours[low] == colour ? s->marking.entries[low].count : 0;
}

/* Whether the marking has what all input arcs take together. */
static bool covered(const struct search *s, const int32_t *values) {
    struct {
        unsigned place;
        uint64_t colour;
        int64_t left;
    } taken[8];
    unsigned n = 0;
    for (unsigned i = 0; i < s->t->inputs; i++) {
        const struct arc *a = &s->t->input[i];
        int32_t coefficient, component;
        uint64_t colour = 0;
        bool marked = true;
        if (!value_of(&a->coefficient, values, &coefficient) || coefficient < 0) return false;
        for (unsigned k = 0; k < s->net.place[a->place].width; k++) {
            if (!value_of(&a->components[k], values, &component)) return false;
            if (is_value(component)) colour = colour << 14 | digit(component);
            else marked = false;
        }
        if (coefficient == 0) continue;
        if (!marked) return false;
        unsigned j = 0;
        while (j < n && (taken[j].place != a->place || taken[j].colour != colour)) j++;
        if (j == n) {
            taken[j].place = a->place;
            taken[j].colour = colour;
            taken[j].left = count_marked(s, a->place, colour);
            n++;
        }
        taken[j].left -= coefficient;
        if (taken[j].left < 0) return false;
    }
    return true;
}

/* ── Bindings found ── */

static void tidy(struct search *s) {
    size_t n = 0;
    if (s->tidy) return;
    qsort(s->kept, s->count, sizeof s->kept[0], compare_keys);
    for (size_t i = 0; i < s->count; i++)
        if (n == 0 || compare(&s->kept[n - 1], &s->kept[i]) != 0) s->kept[n++] = s->kept[i];
    s->count = n;
    s->tidy = true;
}

static void keep(struct search *s) {
    struct key key = {0, 0};
    for (unsigned i = 0; i < s->t->variables; i++) *(i < 4 ? &key.high : &key.low) |= digit(s->values[i]) << 14 * (3 - i % 4);
    if (s->count > 0) {
        int order = compare(&s->kept[s->count - 1], &key);
        if (order == 0) return;
        if (order > 0) s->tidy = false;
    }
    s->kept[s->count++] = key;
    if (s->count == MOST_KEPT) tidy(s);
    if (s->tidy && s->count > s->limit) s->over = true;
}

/* ── Tries ── */

/* A match try: "goes on when lone variables and constants agree with the colour and new values are in range". */
static bool goes_on(struct search *s, const struct step *step, const int32_t *colour) {
    for (unsigned i = 0; i < step->width; i++) {
        int32_t number = step->parts[i].number, value = colour[i];
        switch (step->parts[i].sort) {
        case PART_NEW:
            if (value < s->t->range[number].low || value > s->t->range[number].high) return false;
            s->values[number] = value;
            break;
        case PART_BOUND:
            if (value != s->values[number]) return false;
            break;
        case PART_CONSTANT:
            if (value != number) return false;
            break;
        default: break; /* "components with operators wait for the enabling test" */
        }
    }
    return true;
}

/* A partial binding arrives at an element, or a binding behind the last one. Says no where the tries have passed the budget. */
static bool arrive(struct search *s, unsigned k) {
    if (k == s->t->elements) {
        if (!s->over && guard_holds(s->t, s->values) && covered(s, s->values)) keep(s);
        return true;
    }
    const struct step *step = &s->steps[k];
    int32_t value;
    switch (step->sort) {
    case 0:
        for (const struct entry *e = step->from; e < step->to; e++) {
            if (++s->tries > s->budget) return false;
            if (goes_on(s, step, e->colour) && !arrive(s, k + 1)) return false;
        }
        return true;
    case 1:
        if (++s->tries > s->budget) return false;
        if (!value_of(step->other, s->values, &value) || value < step->range.low || value > step->range.high) return true;
        s->values[step->variable] = value;
        return arrive(s, k + 1);
    default:
        for (value = step->range.low; value <= step->range.high; value++) {
            if (++s->tries > s->budget) return false;
            s->values[step->variable] = value;
            if (!arrive(s, k + 1)) return false;
        }
        return true;
    }
}

uint32_t ref_search(struct search *s, unsigned transition, uint32_t budget, size_t room) {
    s->t = &s->net.transition[transition];
    unsigned variables = s->t->variables;
    prepare(s);
    s->tries = s->count = 0;
    s->budget = budget;
    s->limit = variables > 0 && room / variables < MOST_BINDINGS ? room / variables : MOST_BINDINGS;
    s->over = false;
    s->tidy = true;
    if (!arrive(s, 0)) return 10;
    tidy(s);
    return s->count > s->limit ? 11 : 0;
}

void ref_kept_values(const struct search *s, size_t index, int32_t *values) {
    for (unsigned k = 0; k < s->t->variables; k++) {
        uint64_t half = k < 4 ? s->kept[index].high : s->kept[index].low;
        values[k] = (int32_t)(half >> 14 * (3 - k % 4) & 16383) - 8192;
    }
}

/* ── The call ── */

struct refusal ref_menu(const uint32_t *net, size_t net_length, uint32_t transition, const uint32_t *marking, size_t marking_length, uint32_t budget,
                        uint32_t *menu, size_t room, uint64_t *bindings, uint64_t *tries) {
    static struct search *s;
    if (!s) s = malloc(sizeof *s);
    if (!s) abort();
    *bindings = *tries = 0;
    struct refusal r = ref_read_both(net, net_length, transition, marking, marking_length, &s->net, &s->marking);
    if (r.number != 0) return r;
    ref_index_marking(s);
    r.number = ref_search(s, transition, budget, room);
    if (r.number != 0) {
        for (size_t i = 0; i < room; i++) menu[i] = 0;
        return r;
    }
    for (size_t i = 0; i < s->count; i++) {
        ref_kept_values(s, i, s->values);
        for (unsigned k = 0; k < s->t->variables; k++) *menu++ = ref_value_word(s->values[k]);
    }
    *bindings = s->count;
    *tries = s->tries;
    return r;
}
