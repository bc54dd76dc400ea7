/* The exported tibsulan_play_list, linked to C: the rules of room, and each list that is named, NAME.in, held to NAME.out. */
#include <stdio.h>
#include <stdlib.h>
#include <string.h>
#include "tibsulan.h"

/* Written out again, so that the header's figures are tested too. */
enum { ANSWER = 13, MARK = 0x5a, MOST = 1 << 20 };
_Static_assert(TIBSULAN_ANSWER == ANSWER && TIBSULAN_ROOM(0) == 13 && TIBSULAN_ROOM(13) == 182, "tibsulan.h");

static unsigned failed;
static uint8_t list[MOST], want[MOST];

static void expect(const char *what, int holds) {
    if (!holds) {
        printf("play_list: %s\n", what);
        failed++;
    }
}

static int all_marked(const uint8_t *bytes, size_t length) {
    for (size_t at = 0; at < length; at++)
        if (bytes[at] != MARK)
            return 0;
    return 1;
}

/* The answers with just enough room and with more; with a byte too few, none. */
static void play(const char *what, const uint8_t *given, size_t length, const uint8_t *answers, size_t answers_length) {
    size_t room = ANSWER * (length + 1);
    for (size_t more = 0; more <= 100; more += 50) {
        uint8_t *out = malloc(room + more);
        memset(out, MARK, room + more);
        size_t written = tibsulan_play_list(given, length, out, room + more);
        expect(what, written == answers_length && memcmp(out, answers, answers_length) == 0);
        expect("later bytes are altered", all_marked(out + written, room + more - written));
        free(out);
    }
    size_t few[] = {room - 1, length, 1, 0};
    for (size_t at = 0; at < sizeof few / sizeof *few; at++) {
        if (few[at] >= room)
            continue;
        uint8_t *out = malloc(room);
        memset(out, MARK, room);
        expect("too little room, and not 0", tibsulan_play_list(given, length, out, few[at]) == 0);
        expect("too little room, and bytes are altered", all_marked(out, room));
        free(out);
    }
}

static void play_text(const char *given, const char *answers) {
    play(given, (const uint8_t *)given, strlen(given), (const uint8_t *)answers, strlen(answers));
}

static size_t contents(const char *name, uint8_t *bytes) {
    FILE *file = fopen(name, "rb");
    size_t length = file ? fread(bytes, 1, MOST, file) : 0;
    expect(name, file != NULL && length < MOST);
    if (file)
        fclose(file);
    return length;
}

int main(int count, char **names) {
    play_text("", "");
    play_text("\n", "ff0000000000\n");
    play_text("\n\n", "ff0000000000\nff0000000000\n");
    play_text("020000000000", "000000000000\n");
    play_text("020000000000\n030000000000\n03", "000000000000\n000000000100\nff0000000000\n");
    play_text("020000000000\r\n", "ff0000000000\n");
    play_text("1b1000000000\n", "ff0000000000\n");
    for (int at = 1; at < count; at++) {
        char name[4096];
        size_t length = contents(names[at], list);
        snprintf(name, sizeof name, "%.*s.out", (int)(strlen(names[at]) - strlen(".in")), names[at]);
        play(names[at], list, length, want, contents(name, want));
    }
    if (failed == 0)
        printf("play_list: the rules of room, and %d lists: equal\n", count - 1);
    return failed != 0;
}
