/* The exported pick behind the lines of `reference pick`: 66 lowercase hex digits in (sixteen states, sixteen priorities, current), the
 * slot in two hex digits out. A line of another length, or with another byte, ends it with status 1. */
#include <stdio.h>
#include <string.h>
#include "tibsulan.h"

int main(void) {
    char line[70];
    while (fgets(line, sizeof line, stdin)) {
        uint8_t bytes[33] = {0};
        if (strlen(line) != 67 || strspn(line, "0123456789abcdef") != 66)
            return 1;
        for (int at = 0; at < 66; at++)
            bytes[at / 2] = (uint8_t)(bytes[at / 2] * 16 + (line[at] <= '9' ? line[at] - '0' : line[at] - 'a' + 10));
        printf("%02x\n", tibsulan_pick(bytes, 16, bytes + 16, 16, bytes[32]));
    }
    return 0;
}
