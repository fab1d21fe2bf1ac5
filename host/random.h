/* Random nets, markings, bindings and picks, good ones and damaged ones, from a seed. */
#ifndef RANDOM_H
#define RANDOM_H

#include "reference.h"

#include <stddef.h>
#include <stdint.h>

enum { ROOM = 3 * MOST_WORDS };

/* words, up to ROOM of them */
struct words {
    size_t length;
    uint32_t at[ROOM];
};

void random_seed(uint64_t seed);
uint64_t random_below(uint64_t n);

/* a good net; a large one is longer than 16,384 words now and then */
void random_net(struct words *net, int large);

/* a good net of exactly so many words, 4,675 to 47,683 */
void sized_net(struct words *net, size_t length);

/* a good binding, and a marking with the colours that it takes, many times just enough of them */
void random_situation(const struct net *net, unsigned transition, struct words *marking, struct words *binding);

/* a marking of about so many words with colours of the net's places, if these have enough */
void random_marking(const struct net *net, size_t words, struct words *marking);

/* a net of one place with all values, a marking of about 16,384 words, and a binding that moves a token to a colour that has none */
void long_situation(struct words *net, struct words *marking, struct words *binding);

/* what plans are drawn: matches where they fit and then solves, solves and then matches, ranges alone, or any */
enum taste { MATCHES_FIRST, SOLVES_FIRST, RANGES_ONLY, ANY_PLAN, PLAN_TASTES };

/* a good net with narrow ranges, a marking of it with many colours, and a transition: menus of some length */
void random_menu(enum taste taste, struct words *net, struct words *marking, uint32_t *transition);

/* a good net and a marking of it: the menu of transition 0 has 16,383 to 16,385 bindings, or some that a match finds repeatedly. Kinds from 0 on
   have these by turns */
void wide_menu(unsigned kind, struct words *net, struct words *marking);

/* a good net whose transitions also put tokens, and a marking of it with counts that now and then are near 16,383: runs of some length */
void random_run(enum taste taste, struct words *net, struct words *marking);

/* a word changed, dropped or added, a bit flipped, the end cut off or words put after it */
void damage(struct words *w);

/* a word of a pick list changed so that it still has the kind PICK: another transition, another index or a stray bit */
void damage_pick(struct words *picks);

/* an element of a plan of a good net changed, put later or left out */
void damage_plan(struct words *net);

#endif
