/* A list of calls, each printed beside its answer: two tasks and a mutex. */
#include <stdio.h>
#include "tibsulan.h"

static const char list[] =
    "010720000400\n"  /* add: priority 7, 1,024 bytes from 0x2000 */
    "010724000400\n"  /* add: priority 7, the next 1,024 */
    "020000000000\n"  /* start */
    "0a0000000000\n"  /* lock mutex 0 */
    "0400000023fc\n"  /* switch */
    "0a0000000000\n"  /* lock mutex 0 */
    "0b0000000000\n"  /* unlock mutex 0 */
    "030000000000\n"  /* tick */
    "0400000027fc\n"  /* switch */
    "0b0000000000\n"; /* unlock mutex 0 */

int main(void) {
    enum { LENGTH = sizeof list - 1 };
    static uint8_t answers[TIBSULAN_ROOM(LENGTH)];
    size_t length = tibsulan_play_list((const uint8_t *)list, LENGTH, answers, sizeof answers);
    /* Here a line is as long as its answer, so both stand at the same place. */
    for (size_t at = 0; at < length; at += TIBSULAN_ANSWER)
        printf("%.12s %.12s\n", list + at, (const char *)answers + at);
    return 0;
}
