/* Both archives in one program: a pick, and a list of one line. */
#include "tibsulan.h"

#include <string.h>

int main(void)
{
    const uint8_t states[TIBSULAN_SLOTS] = {0}, priorities[TIBSULAN_SLOTS] = {0}, list[] = "020000000000\n";
    uint8_t out[TIBSULAN_ROOM(sizeof list - 1)];
    if (tibsulan_pick(states, TIBSULAN_SLOTS, priorities, TIBSULAN_SLOTS, 3) != 4)
        return 1;
    if (tibsulan_play_list(list, sizeof list - 1, out, sizeof out) != TIBSULAN_ANSWER)
        return 1;
    return memcmp(out, "000000000000\n", TIBSULAN_ANSWER) != 0;
}
