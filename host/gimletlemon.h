/*
 * Gimletlemon for C programs. Link libgimletlemon.a, which host/run builds of the crate gimletlemon_c; README.md has the commands.
 *
 * Every function takes any input: nothing has to hold of the words or bytes. What is not a net, a marking or a binding is refused.
 *
 * Slices. A slice is passed as a pointer to its first element and the number of its elements.
 *   - The pointer is never NULL, also for an empty slice: pass a pointer to any object of the element's type and the length 0; nothing is
 *     read or written through it.
 *   - Words (uint32_t) are aligned to 4 bytes; bytes (uint8_t) may stand anywhere. A size in bytes is below 2^63.
 *   - The caller owns all memory. A function reads and writes during the call only, keeps no pointer and allocates nothing.
 *   - A slice that is passed as const is not changed, and nothing may change it during the call.
 *
 * Numbers to be written (uint64_t *) are never NULL, are aligned to 8 bytes, and are written on every call, whatever it answers. They overlap
 * neither each other nor any slice; what they hold before the call does not matter.
 *
 * Functions on words use less than 40 KB of stack, the run most of it, for a table of its transitions; those on bytes say what they use.
 *
 * Functions may be called from several threads at once if no call writes what another call uses.
 */
#ifndef GIMLETLEMON_H
#define GIMLETLEMON_H

#include <stddef.h>
#include <stdint.h>

#ifdef __cplusplus
extern "C" {
#endif

/* What a function returns: 0, or why it refused. Where several reasons hold, 1 to 3 go by the first word that stops the reading, and otherwise
   the lowest number is told. The position counts words, from 0, from the front of the slice that is named here; it is the first word that
   cannot be taken, or the slice's length where words end. */
enum gimletlemon_refusal {
    GIMLETLEMON_ACCEPTED = 0,       /* not refused; position 0 */

    /* Refused for the input. */
    GIMLETLEMON_NET_TOO_LONG = 1,   /* the net needs the word 16,384, and it exists; net */
    GIMLETLEMON_NET_ENDS_EARLY = 2, /* the net needs more words; net. On bytes also: not a whole number of words */
    GIMLETLEMON_BAD_WORD = 3,       /* wrong kind, stray bit, number beyond its limit, place or variable missing, expression too long; net */
    GIMLETLEMON_WORDS_LEFT = 4,     /* words left after the net; net */
    GIMLETLEMON_UNFIT_PLAN = 5,     /* an element that does not fit, or a variable left unbound (at the TRANSITION); net */
    GIMLETLEMON_NO_TRANSITION = 6,  /* the net has no such transition; position 0, in a run that of the first such pick; picks */
    GIMLETLEMON_BAD_MARKING = 7,    /* marking malformed, out of order or over 16,384 words; marking. On bytes also: not whole words. In a run
                                       also: longer than the buffer that it stands in, at the buffer's length */
    GIMLETLEMON_BAD_BINDING = 8,    /* binding malformed, too short, too long or out of range; binding. On bytes also: not whole words */
    GIMLETLEMON_BAD_PICK = 9,       /* a pick of wrong kind or with stray bits; picks */

    /* Refused for the state; position 0. */
    GIMLETLEMON_OVER_BUDGET = 10,   /* the menu takes more tries than the budget allows */
    GIMLETLEMON_OVER_MENU = 11,     /* more than 16,383 bindings, or more than the menu buffer holds */
    GIMLETLEMON_NO_SUCH_INDEX = 12, /* the menu has no binding at the pick's index */
    GIMLETLEMON_NOT_ENABLED = 13,   /* the binding is not enabled */
    GIMLETLEMON_BAD_OUTPUT = 14,    /* an output without value, negative, or outside its place */
    GIMLETLEMON_OVER_COUNT = 15,    /* a count would pass 16,383 */
    GIMLETLEMON_OVER_ROOM = 16      /* the new marking is longer than its buffer, in a run than the shorter of buffer and spare, or than 16,384 words */
};

/*
 * Whether words are a net. Returns 0 or a refusal from 1 to 5, and writes its position.
 *
 *   net, net_length  the words
 *   position         where the refusal's position is written, 0 where the net is accepted
 */
uint32_t gimletlemon_check(const uint32_t *net, size_t net_length, uint64_t *position);

/*
 * The same on little-endian bytes, four a word, the least significant first. A length that is not a multiple of four is refused first, with 2 at
 * the count of whole words. Uses about 80 KB of stack.
 *
 *   net, net_length  the bytes
 *   position         as above; it counts words and not bytes
 */
uint32_t gimletlemon_check_bytes(const uint8_t *net, size_t net_length, uint64_t *position);

/*
 * A net at the front of words. Returns 0 or a refusal (1, 2, 3 or 5), and writes its position and where the words after the net begin: these are
 * words[*rest] up to the end, length - *rest of them. Where the net is refused *rest is the length, so that none are left.
 *
 *   words, length    the words
 *   rest             where the number of the net's words is written, or the length
 *   position         as above
 */
uint32_t gimletlemon_split(const uint32_t *words, size_t length, uint64_t *rest, uint64_t *position);

/*
 * Whether a binding of a transition is enabled in a marking. Returns 0 or a refusal from 1 to 8, and writes the answer and the position.
 *
 *   net, net_length          the words of the net
 *   transition               the transition's number, from 0
 *   marking, marking_length  the words of the marking; none is the empty marking
 *   binding, binding_length  the words of the binding, a VALUE for each of the transition's variables
 *   enabled                  where 1 is written for yes, and 0 for no and where the call is refused
 *   position                 where the refusal's position is written, 0 where there is none
 */
uint32_t gimletlemon_test(const uint32_t *net, size_t net_length, uint32_t transition, const uint32_t *marking, size_t marking_length,
                          const uint32_t *binding, size_t binding_length, uint64_t *enabled, uint64_t *position);

/*
 * The same on little-endian bytes. A length that is not a multiple of four is refused first, with 2, 7 or 8 for net, marking or binding, in that
 * order, at the count of whole words. Uses about 220 KB of stack.
 */
uint32_t gimletlemon_test_bytes(const uint8_t *net, size_t net_length, uint32_t transition, const uint8_t *marking, size_t marking_length,
                                const uint8_t *binding, size_t binding_length, uint64_t *enabled, uint64_t *position);

/*
 * Fires a binding of a transition. Returns 0 and writes the new marking to the front of `next` and its length; or returns a refusal from 1 to 8 or
 * from 13 to 16.
 *
 *   next, next_length  the buffer for the new marking; it overlaps no other slice. Words beyond the new marking stay, and all of it stays where
 *                      the call is refused. 16,384 words are always enough
 *   length             where the new marking's number of words is written, 0 where the call is refused
 *   the rest           as for gimletlemon_test
 */
uint32_t gimletlemon_fire(const uint32_t *net, size_t net_length, uint32_t transition, const uint32_t *marking, size_t marking_length,
                          const uint32_t *binding, size_t binding_length, uint32_t *next, size_t next_length, uint64_t *length,
                          uint64_t *position);

/*
 * The menu of a transition: every binding that is enabled in a marking, each once. Returns 0 and writes the bindings to the front of `menu`, their
 * number and the tries of the search; or returns a refusal from 1 to 7, or 10 or 11.
 *
 * With V variables a binding is V VALUE words, that of variable 0 first, as gimletlemon_test and gimletlemon_fire take them: the binding with index
 * i is menu[i * V] to menu[i * V + V - 1]. Bindings rise by the value of variable 0, then 1 and on; values are signed, so that -1 comes before 0.
 * A transition without variables has one binding, of no words: *bindings is 1 where it is enabled and 0 where not, and nothing is written to `menu`.
 *
 *   budget             how many tries the search may make; one that needs more is given up and refused with 10. A try is a colour that a match
 *                      looks at, a solve, or a value of a range; how many are needed depends on the plan and the marking, and the call's time
 *                      grows with them
 *   menu, menu_length  the buffer for the bindings; it overlaps no other slice. What happens to it:
 *                        returned 0         the first *bindings * V words are the bindings; words beyond stay
 *                        returned 1 to 7    all of it stays
 *                        returned 10, 11    all of it is zero, and holds no part of the menu
 *                      16,383 * V words are always enough, 131,064 for any transition; more bindings are refused with 11 whatever the length
 *   bindings           where the number of bindings is written, 0 where the call is refused; 0 is also the answer where none is enabled
 *   tries              where the number of tries is written, at most the budget, 0 where the call is refused. With the same net, transition and
 *                      marking it is the same for every budget that suffices
 *   the rest           as for gimletlemon_test
 */
uint32_t gimletlemon_menu(const uint32_t *net, size_t net_length, uint32_t transition, const uint32_t *marking, size_t marking_length,
                          uint32_t budget, uint32_t *menu, size_t menu_length, uint64_t *bindings, uint64_t *tries, uint64_t *position);

/*
 * Plays picks one after the other: each pick fires the binding at its index in the menu of its transition, and the marking after it is the one that
 * the next pick starts from. All input is checked before the first pick. Returns 0 where every pick was fired; a refusal from 1 to 7 or 9 where the
 * input is refused and nothing was done; or 10, 11, 12, 14, 15 or 16 for the pick that could not be fired.
 *
 * A pick is a PICK word: 0xD0000000 | transition << 14 | index. Transitions count from 0 and are below the net's number of them; the index, from 0 to
 * 16,383, counts the bindings in the order in which gimletlemon_menu lists them in the marking that the picks before it have left.
 *
 * The first pick that is refused ends the run; this is the stop. The buffer then holds the marking before that pick, *done is how many picks were
 * fired before it, so that picks[*done] is the refused one, and later picks are not looked at. What stops a pick is, the lowest number first:
 *   GIMLETLEMON_OVER_BUDGET     its menu takes more tries than the budget; every pick has the whole budget
 *   GIMLETLEMON_OVER_MENU       its menu has more than 16,383 bindings, or does not fit into `menu`
 *   GIMLETLEMON_NO_SUCH_INDEX   its menu has no binding at the pick's index
 *   GIMLETLEMON_BAD_OUTPUT, GIMLETLEMON_OVER_COUNT
 *                               the binding is enabled, but firing it is refused, as by gimletlemon_fire
 *   GIMLETLEMON_OVER_ROOM       the new marking is longer than the room, which is the shorter of buffer_length and spare_length, or than 16,384 words
 *
 *   net, net_length        the words of the net
 *   budget                 how many tries the menu of each pick may take
 *   buffer, buffer_length  the marking to start from is its first m words; the marking at the end is written to its front
 *   m                      how many words the marking to start from has; 0 is the empty marking
 *   spare, spare_length    working space for a new marking. With 16,384 words each, buffer and spare have room for every marking
 *   menu, menu_length      working space for a menu; 131,064 words are enough for every menu
 *   picks, picks_length    the picks, as many as there are; none is a run too
 *   done                   where the number of picks fired is written, 0 where the input is refused
 *   length                 where the number of words of the marking at the end is written, 0 where the input is refused
 *   position               where the refusal's position is written: 1 to 5 in the net, 6 and 9 the index of the pick, 7 in the buffer; else 0
 *
 * What happens to the three buffers, of which none overlaps another or any other slice:
 *   input refused          all three stay as they were
 *   else, stop or not      the first *length words of `buffer` are the marking, the rest of it is zero; all of `spare` and all of `menu` is zero
 */
uint32_t gimletlemon_run(const uint32_t *net, size_t net_length, uint32_t budget, uint32_t *buffer, size_t buffer_length, size_t m, uint32_t *spare,
                         size_t spare_length, uint32_t *menu, size_t menu_length, const uint32_t *picks, size_t picks_length, uint64_t *done,
                         uint64_t *length, uint64_t *position);

#ifdef __cplusplus
}
#endif

#endif
