/* Tibsulan for C and C++: the pick, and a whole list of calls answered. For x86-64 Linux.
 *
 *   tibsulan_pick         tests/build pick         target/staticlib/libpick.a
 *   tibsulan_play_list    tests/build play_list    target/staticlib/libplay_list.a
 *
 * A slice is a pointer and a length. Of each the caller sees to it that the pointer is not NULL, for the length 0 too, that so many
 * bytes stand there, and that nobody else writes them during the call. With that each call ends on every input. Neither
 * keeps anything between calls, allocates, reads or prints, so threads may call them at the same time. */
#ifndef TIBSULAN_H
#define TIBSULAN_H

#include <stddef.h>
#include <stdint.h>

#ifdef __cplusplus
extern "C" {
#endif

/* The task table has sixteen slots; slot 0 is idle. */
#define TIBSULAN_SLOTS 16

/* What a slot's state byte says. */
#define TIBSULAN_READY 0
#define TIBSULAN_RUNNING 1
#define TIBSULAN_BLOCKED 2
#define TIBSULAN_SLEEPING 3
#define TIBSULAN_SUSPENDED 4
#define TIBSULAN_TERMINATED 5
#define TIBSULAN_EMPTY 6

/* What tibsulan_pick answers where it refuses (refusal 22). No slot has this number. */
#define TIBSULAN_REFUSED 255

/* Who runs next: of the Ready slots those with the smallest priority number, and of these the first from current + 1 on, slot 0
 * following slot 15. Where no slot is Ready, slot 0.
 *
 * TIBSULAN_REFUSED where a length is not 16, a state is above 6 or current is above 15. The priorities may be any; those of slots
 * that are not Ready do not matter. The two slices are only read. */
uint8_t tibsulan_pick(const uint8_t *states, size_t states_length, const uint8_t *priorities, size_t priorities_length,
                      uint8_t current);

/* An answer is 12 hex digits and a line feed. */
#define TIBSULAN_ANSWER 13

/* How many bytes tibsulan_play_list has to be lent for the answers to a list of so many bytes. */
#define TIBSULAN_ROOM(list_length) (TIBSULAN_ANSWER * ((list_length) + 1))

/* A list of calls from a fresh kernel, answered as `turns` answers it: a line in, a line out (README has the notation). The answers
 * stand at the start of `out`, with no 0 byte after them; their length is returned, and later bytes of `out` stay as they were.
 *
 * Where out_length is below TIBSULAN_ROOM(list_length), 0 is returned and nothing is altered. An empty list has no answers, so with
 * that room too 0 is returned; every other list has at least one. `list` is only read. The two must not overlap. 128 KB of stack
 * suffice: it is tested with that. */
size_t tibsulan_play_list(const uint8_t *list, size_t list_length, uint8_t *out, size_t out_length);

#ifdef __cplusplus
}
#endif

#endif
