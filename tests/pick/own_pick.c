/* A simulator that has a pick of its own, as the course's may: it links, and each of the two is the one that its name says. */
#include <stdio.h>
#include <string.h>
#include "tibsulan.h"

int pick(int n) { return n + 1000; }

int main(void) {
    uint8_t states[TIBSULAN_SLOTS], priorities[TIBSULAN_SLOTS] = {0};
    memset(states, TIBSULAN_EMPTY, sizeof states);
    states[9] = TIBSULAN_READY;
    int own = pick(1), slot = tibsulan_pick(states, TIBSULAN_SLOTS, priorities, TIBSULAN_SLOTS, 3);
    if (own != 1001 || slot != 9) {
        printf("pick: of a program with its own pick: got %d and %d, want 1001 and 9\n", own, slot);
        return 1;
    }
    return 0;
}
