/* Who runs next: a printer's task table, asked of the proved pick as its tasks change. */
#include <stdio.h>
#include <string.h>
#include "tibsulan.h"

static uint8_t states[TIBSULAN_SLOTS], priorities[TIBSULAN_SLOTS];

static void ask(const char *when, uint8_t current) {
    unsigned slot = tibsulan_pick(states, TIBSULAN_SLOTS, priorities, TIBSULAN_SLOTS, current);
    if (slot == TIBSULAN_REFUSED)
        printf("%s: refused\n", when);
    else
        printf("%s: slot %u\n", when, slot);
}

int main(void) {
    memset(states, TIBSULAN_EMPTY, sizeof states);
    states[0] = TIBSULAN_READY, priorities[0] = 255;  /* idle */
    states[1] = TIBSULAN_BLOCKED, priorities[1] = 10; /* head */
    states[2] = TIBSULAN_READY, priorities[2] = 128;  /* feed */
    states[3] = TIBSULAN_READY, priorities[3] = 128;  /* network */
    ask("feed was current", 2);
    ask("network was current", 3);
    states[1] = TIBSULAN_READY;
    ask("head is Ready", 2);
    states[1] = states[2] = states[3] = TIBSULAN_SLEEPING;
    ask("all asleep", 3);
    ask("there is no slot 16", 16);
    return 0;
}
