/* What comparisons of the library with the reference share: counts of the answers met, lent buffers with a page behind them that may not be touched,
   and how a difference is told. */
#ifndef COMPARE_H
#define COMPARE_H

#include "random.h"
#include "reference.h"

#include <stddef.h>
#include <stdint.h>

enum call { CHECK, SPLIT, CHECK_BYTES, TEST, TEST_BYTES, FIRE, MENU, RUN, CALLS };

extern const char *const call_names[CALLS];
extern uint64_t met[CALLS][17], seed, now_round; /* met: answers by call and refusal */

/* what numbers and words hold that have not been written */
extern const uint64_t unwritten;

/* ── Buffers: after the last byte and before the first page comes a page that may not be touched ── */

enum { FENCE = 64 }; /* bytes before a buffer that have to stay */

struct buffer {
    uint8_t *base;
    size_t room;
};

void make(struct buffer *b, size_t room);

/* a copy that ends where the page ends; an empty slice gets the address of a byte or word that is not used */
void *place(struct buffer *b, const void *from, size_t size);

/* sets the bytes before a buffer, and says whether they have stayed */
void set_fence(void *front);
int fence_kept(const void *front);

int kept(const void *lent, const void *was, size_t size);

/* any words, such as a caller's buffer may hold */
void fill_words(uint32_t *words, size_t length);

/* ── Differences ── */

struct answer {
    struct refusal refusal;
    uint64_t number; /* rest, enabled, length or bindings */
    uint64_t second; /* tries of a menu, picks done of a run */
};

void print_words(const char *what, const uint32_t *words, size_t length);
void differs(enum call call, const char *what, struct answer library, struct answer reference);

/* Counts an answer; says whether library and reference agree. */
int agree(enum call call, struct answer library, struct answer reference);

/* Prints the net and ends the program. */
void fail_net(const struct words *net);

#endif
