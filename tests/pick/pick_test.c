/* The exported pick, linked as the course's simulator links it: the exam's cases, every refusal, the way round from every slot, and random
 * tables against a plain search. */
#include <stdio.h>
#include <string.h>
#include "tibsulan.h"

/* Written out again, so that the header's figures are tested too. */
enum { SLOTS = 16, EMPTY = 6, REFUSED = 255, TABLES = 100000 };
_Static_assert(TIBSULAN_SLOTS == SLOTS && TIBSULAN_EMPTY == EMPTY && TIBSULAN_REFUSED == REFUSED, "tibsulan.h");
_Static_assert(TIBSULAN_READY == 0 && TIBSULAN_RUNNING == 1 && TIBSULAN_BLOCKED == 2, "tibsulan.h");
_Static_assert(TIBSULAN_SLEEPING == 3 && TIBSULAN_SUSPENDED == 4 && TIBSULAN_TERMINATED == 5, "tibsulan.h");

static unsigned failed;

static void expect(const char *what, unsigned got, unsigned want) {
    if (got != want) {
        printf("pick: %s: got %u, want %u\n", what, got, want);
        failed++;
    }
}

/* The answer by sorting: of the Ready slots the smallest priority, then the fewest steps from current + 1. */
static unsigned plain(const uint8_t *states, const uint8_t *priorities, unsigned current) {
    unsigned best = 0, best_cost = ~0u;
    for (unsigned step = 1; step <= SLOTS; step++) {
        unsigned slot = (current + step) % SLOTS;
        unsigned cost = priorities[slot] * 32u + step;
        if (states[slot] == 0 && cost < best_cost) {
            best_cost = cost;
            best = slot;
        }
    }
    return best;
}

static uint32_t next_random(uint32_t *state) {
    *state ^= *state << 13;
    *state ^= *state >> 17;
    *state ^= *state << 5;
    return *state;
}

static uint8_t table_pick(const uint8_t *states, const uint8_t *priorities, unsigned current) {
    return tibsulan_pick(states, SLOTS, priorities, SLOTS, (uint8_t)current);
}

static void exam_cases(void) {
    uint8_t s[SLOTS], p[SLOTS];
    memset(s, EMPTY, sizeof s);
    memset(p, 0, sizeof p);
    s[0] = 0, p[0] = 255;
    expect("idle alone", table_pick(s, p, 0), 0);
    s[3] = s[4] = 0, p[3] = p[4] = 128;
    expect("3 and 4 at 128, current 3", table_pick(s, p, 3), 4);
    s[4] = EMPTY, s[15] = 0, p[3] = p[15] = 7;
    expect("3 and 15 at 7, current 15", table_pick(s, p, 15), 3);
    s[3] = s[15] = EMPTY, s[2] = s[5] = 0, p[2] = 9, p[5] = 8;
    expect("2 at 9, 5 at 8, current 1", table_pick(s, p, 1), 5);
    memset(s, EMPTY, sizeof s);
    s[0] = 2;
    expect("none Ready", table_pick(s, p, 0), 0);
}

static void refusals(void) {
    uint8_t s[SLOTS + 1] = {0}, p[SLOTS + 1] = {0};
    expect("15 states", tibsulan_pick(s, 15, p, 16, 0), REFUSED);
    expect("17 states", tibsulan_pick(s, 17, p, 16, 0), REFUSED);
    expect("no state", tibsulan_pick(s, 0, p, 16, 0), REFUSED);
    expect("15 priorities", tibsulan_pick(s, 16, p, 15, 0), REFUSED);
    expect("17 priorities", tibsulan_pick(s, 16, p, 17, 0), REFUSED);
    expect("current 15", tibsulan_pick(s, 16, p, 16, 15), 0);
    for (unsigned current = 16; current < 256; current++)
        expect("current above 15", table_pick(s, p, current), REFUSED);
    for (unsigned slot = 0; slot < SLOTS; slot++) {
        s[slot] = 7;
        expect("state 7", table_pick(s, p, 0), REFUSED);
        s[slot] = 255;
        expect("state 255", table_pick(s, p, 0), REFUSED);
        s[slot] = 0;
    }
}

/* From every current: to every slot that is Ready alone, and to the next one where all are Ready alike. */
static void way_round(void) {
    for (unsigned current = 0; current < SLOTS; current++) {
        uint8_t s[SLOTS], p[SLOTS] = {0};
        memset(s, EMPTY, sizeof s);
        for (unsigned slot = 0; slot < SLOTS; slot++) {
            s[slot] = 0;
            expect("Ready alone", table_pick(s, p, current), slot);
            s[slot] = EMPTY;
        }
        memset(s, 0, sizeof s);
        expect("all alike", table_pick(s, p, current), current == 15 ? 0 : current + 1);
    }
}

static void random_tables(void) {
    uint32_t seed = 2463534242u;
    unsigned picked[SLOTS] = {0};
    for (unsigned table = 0; table < TABLES; table++) {
        uint8_t s[SLOTS], p[SLOTS];
        uint32_t range = 1u << (next_random(&seed) % 9);
        for (unsigned slot = 0; slot < SLOTS; slot++) {
            s[slot] = (uint8_t)(next_random(&seed) % 7);
            p[slot] = (uint8_t)(255 - next_random(&seed) % range);
        }
        unsigned current = next_random(&seed) % SLOTS;
        unsigned want = plain(s, p, current);
        expect("random table", table_pick(s, p, current), want);
        picked[want]++;
    }
    for (unsigned slot = 0; slot < SLOTS; slot++)
        if (picked[slot] == 0)
            expect("a slot that no table picked", slot, REFUSED);
}

int main(void) {
    exam_cases();
    refusals();
    way_round();
    random_tables();
    if (failed == 0)
        printf("pick: exam cases, refusals, the way round and %d random tables agree\n", TABLES);
    return failed != 0;
}
