/*
 * What document 01 says of check, split, test, fire, menu and run, once more and on its own: plain C, against which host/test.c holds the library.
 * Only the search for menus (reference_menu.c) and the run (reference_run.c) have regard to speed. Nothing here is shared with the library but the
 * layout of words.
 */
#ifndef REFERENCE_H
#define REFERENCE_H

#include <stdbool.h>
#include <stddef.h>
#include <stdint.h>

enum { MOST_WORDS = 16384, MOST_EXPRESSION = 15, MOST_COUNT = 16383, MOST_ENTRIES = MOST_WORDS / 2 };

/* a refusal's number and position, 0 and 0 for none */
struct refusal {
    uint32_t number;
    uint64_t position;
};

struct range {
    int32_t low, high;
};

struct place {
    unsigned width;
    struct range ranges[4];
};

/* An expression is its nodes in the order of its words; the operands of a node are nodes after it. */
enum node_kind { NODE_CONSTANT, NODE_VARIABLE, NODE_ADD, NODE_SUBTRACT, NODE_MULTIPLY, NODE_REMAINDER, NODE_LOAD };

struct node {
    enum node_kind kind;
    int32_t number; /* a constant's value, a variable's number */
    unsigned left, right;
};

struct expression {
    unsigned count;
    struct node nodes[MOST_EXPRESSION];
};

struct arc {
    unsigned place;
    struct expression coefficient, components[4];
};

struct conjunct {
    unsigned relation;
    struct expression left, right;
};

struct element {
    size_t position;
    unsigned sort, number;
};

struct transition {
    size_t position;
    unsigned variables, inputs, outputs, conjuncts, elements;
    struct range range[8];
    struct arc input[8], output[8];
    struct conjunct guard[8];
    struct element plan[8];
};

struct net {
    unsigned places, transitions;
    struct place place[64];
    struct transition transition[64];
};

/* a colour of a place and how many */
struct entry {
    unsigned place;
    int32_t colour[4];
    int64_t count;
};

struct marking {
    size_t count;
    struct entry entries[MOST_ENTRIES + 16];
};

/* The net at the front of words, and where it ends: refusals 1 to 3. */
struct refusal ref_read_net(const uint32_t *words, size_t length, struct net *net, size_t *end);

/* Refusal 5. */
struct refusal ref_plans(const struct net *net);

/* Refusals 7 and 8. */
struct refusal ref_read_marking(const struct net *net, const uint32_t *words, size_t length, struct marking *marking);
struct refusal ref_read_binding(const struct transition *t, const uint32_t *words, size_t length, int32_t *values);

/* A net alone: refusals 1 to 5. */
struct refusal ref_accept_net(const uint32_t *words, size_t length, struct net *net);

/* A net and a marking, and whether the net has the transition: refusals 1 to 7. */
struct refusal ref_read_both(const uint32_t *net_words, size_t net_length, uint32_t transition, const uint32_t *marking_words, size_t marking_length,
                             struct net *net, struct marking *marking);

/* The value of an expression under a binding, if it has one. */
bool ref_value(const struct expression *e, const int32_t *values, int32_t *value);

/* What an arc takes or puts under a binding, if all its expressions have values and the coefficient is not negative. */
bool ref_flow(const struct net *net, const struct arc *a, const int32_t *values, struct entry *flow);

/* The words of a TOKEN and of a VALUE. */
uint32_t ref_token_word(unsigned place, unsigned count);
uint32_t ref_value_word(int32_t value);

/* The calls. */
struct refusal ref_check(const uint32_t *net, size_t length);
struct refusal ref_check_bytes(const uint8_t *net, size_t length);
struct refusal ref_split(const uint32_t *words, size_t length, uint64_t *rest);
struct refusal ref_test(const uint32_t *net, size_t net_length, uint32_t transition, const uint32_t *marking, size_t marking_length,
                        const uint32_t *binding, size_t binding_length, uint64_t *enabled);
struct refusal ref_test_bytes(const uint8_t *net, size_t net_length, uint32_t transition, const uint8_t *marking, size_t marking_length,
                              const uint8_t *binding, size_t binding_length, uint64_t *enabled);
struct refusal ref_fire(const uint32_t *net, size_t net_length, uint32_t transition, const uint32_t *marking, size_t marking_length,
                        const uint32_t *binding, size_t binding_length, uint32_t *next, size_t room, uint64_t *length);
struct refusal ref_menu(const uint32_t *net, size_t net_length, uint32_t transition, const uint32_t *marking, size_t marking_length, uint32_t budget,
                        uint32_t *menu, size_t room, uint64_t *bindings, uint64_t *tries);

struct refusal ref_run(const uint32_t *net, size_t net_length, uint32_t budget, uint32_t *buffer, size_t buffer_length, size_t m, uint32_t *spare,
                       size_t spare_length, uint32_t *menu, size_t menu_length, const uint32_t *picks, size_t picks_length, uint64_t *done,
                       uint64_t *length);

/* All enabled bindings in order, by testing every binding: nothing of plans is in it. `list` has room for `most` bindings. Says no, and lists
   nothing, where the input is refused or the transition has more than `most` bindings. */
bool ref_list_all(const uint32_t *net, size_t net_length, uint32_t transition, const uint32_t *marking, size_t marking_length, uint64_t most,
                  uint32_t *list, uint64_t *bindings);

#endif
