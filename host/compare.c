/* See compare.h. */
#define _DEFAULT_SOURCE
#include "compare.h"

#include <inttypes.h>
#include <stdio.h>
#include <stdlib.h>
#include <string.h>
#include <sys/mman.h>
#include <unistd.h>

const char *const call_names[CALLS] = {"check", "split", "check_bytes", "test", "test_bytes", "fire", "menu", "run"};
uint64_t met[CALLS][17], seed = 20240229, now_round;
const uint64_t unwritten = 0xDEADBEEFDEADBEEFu;

void make(struct buffer *b, size_t room) {
    size_t page = (size_t)sysconf(_SC_PAGESIZE);
    room = (room + page - 1) / page * page;
    uint8_t *all = mmap(NULL, room + 2 * page, PROT_NONE, MAP_PRIVATE | MAP_ANONYMOUS, -1, 0);
    if (all == MAP_FAILED || mprotect(all + page, room, PROT_READ | PROT_WRITE) != 0) {
        perror("mmap");
        exit(2);
    }
    b->base = all + page;
    b->room = room;
}

void *place(struct buffer *b, const void *from, size_t size) {
    uint8_t *to = b->base + b->room - size;
    if (size == 0) return to - 4;
    memcpy(to, from, size);
    return to;
}

void set_fence(void *front) { memset((uint8_t *)front - FENCE, 0x5A, FENCE); }

int fence_kept(const void *front) {
    for (unsigned i = 1; i <= FENCE; i++)
        if (((const uint8_t *)front)[-(int)i] != 0x5A) return 0;
    return 1;
}

int kept(const void *lent, const void *was, size_t size) { return size == 0 || memcmp(lent, was, size) == 0; }

void fill_words(uint32_t *words, size_t length) {
    for (size_t i = 0; i < length; i++) words[i] = (uint32_t)random_below(1ull << 32);
}

void print_words(const char *what, const uint32_t *words, size_t length) {
    printf("%s, %zu words:", what, length);
    for (size_t i = 0; i < length; i++) printf(" %08" PRIX32, words[i]);
    printf("\n");
}

void differs(enum call call, const char *what, struct answer library, struct answer reference) {
    printf("%s differs in %s, seed %" PRIu64 ", round %" PRIu64 "\n", call_names[call], what, seed, now_round);
    const struct answer *answers[] = {&library, &reference};
    for (unsigned i = 0; i < 2; i++) {
        printf("%s refusal %" PRIu32 " at %" PRIu64, i == 0 ? "library:  " : "reference:", answers[i]->refusal.number, answers[i]->refusal.position);
        printf(", number %" PRIu64, answers[i]->number);
        if (call == MENU) printf(", tries %" PRIu64, answers[i]->second);
        if (call == RUN) printf(", picks done %" PRIu64, answers[i]->second);
        printf("\n");
    }
}

int agree(enum call call, struct answer library, struct answer reference) {
    if (library.refusal.number != reference.refusal.number || library.refusal.position != reference.refusal.position || library.number != reference.number ||
        library.second != reference.second) {
        differs(call, "its answer", library, reference);
        return 0;
    }
    met[call][reference.refusal.number]++;
    return 1;
}

void fail_net(const struct words *net) {
    print_words("net", net->at, net->length);
    exit(1);
}
