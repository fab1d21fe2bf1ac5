/*
 * The search for the enabled bindings of a transition, which the reference's menu and run share. Net and marking are structures; how it goes is told
 * in reference_menu.c.
 */
#ifndef REFERENCE_SEARCH_H
#define REFERENCE_SEARCH_H

#include "reference.h"

/* variables 0 to 3, and 4 to 7: 14 bits for a value, counted from -8,192, the first value highest */
struct key {
    uint64_t high, low;
};

/* what a match does with a component of its arc */
enum part_sort { PART_NEW, PART_BOUND, PART_CONSTANT, PART_LATER };

struct part {
    enum part_sort sort;
    int32_t number; /* a variable's number, a constant's value */
};

/* an element of the plan with what is known before the search begins */
struct step {
    unsigned sort;
    const struct entry *from, *to; /* match: the place's entries */
    unsigned width;
    struct part parts[4];
    unsigned variable; /* solve and range: the variable bound */
    struct range range;
    const struct expression *other; /* solve: the side with bound variables only */
};

enum { MOST_BINDINGS = 16383, MOST_KEPT = 2 * (MOST_BINDINGS + 1) };

struct search {
    struct net net;
    struct marking marking;
    uint64_t colours[MOST_ENTRIES + 16]; /* of the marking's entries, in their order */
    size_t first[65];                    /* where a place's entries begin; they end where the next one's begin */
    const struct transition *t;
    struct step steps[8];
    int32_t values[8];
    uint64_t tries, budget;
    size_t limit; /* how many bindings the menu may have */
    bool over;    /* it has more */
    size_t count; /* of those kept, which may stand there repeatedly and out of order if not tidy */
    bool tidy;
    struct key kept[MOST_KEPT];
};

/* A colour as a number that rises as colours do; says no where a component is no value, so that no marking can have it. */
bool ref_colour(const int32_t *components, unsigned width, uint64_t *colour);

/* Colours and beginnings, once net and marking are there. */
void ref_index_marking(struct search *s);

/* The enabled bindings of a transition, each once and in order, in kept[0] to kept[count - 1]; refusal 10 or 11, or 0. */
uint32_t ref_search(struct search *s, unsigned transition, uint32_t budget, size_t room);

/* The values of a binding found. */
void ref_kept_values(const struct search *s, size_t index, int32_t *values);

#endif
