/* A program that has a play_list and a pick of its own: it links, and each name is the one that it says. */
#include <stdio.h>
#include <string.h>
#include "tibsulan.h"

int pick(int n) { return n + 1000; }
int play_list(int n) { return n + 2000; }

int main(void) {
    static const char list[] = "020000000000\n";
    uint8_t answers[TIBSULAN_ROOM(sizeof list)];
    size_t length = tibsulan_play_list((const uint8_t *)list, strlen(list), answers, sizeof answers);
    if (pick(1) != 1001 || play_list(1) != 2001 || length != TIBSULAN_ANSWER || memcmp(answers, "000000000000\n", length) != 0) {
        printf("play_list: of a program with its own pick and play_list: another answer\n");
        return 1;
    }
    return 0;
}
