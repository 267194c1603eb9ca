/*
 * A small player: judges a show by each of two sheets, compares the sheets, and judges the counter-show if there is one.
 *
 *     player                 sheets A and B, which are built in
 *     player FIRST SECOND    packed sheets in files
 *
 * Build it with include/ in the search path and target/lib/libfdfa.a, which `make lib` writes.
 */
#include "fdfa.h"

#include <inttypes.h>
#include <stdio.h>
#include <stdlib.h>

struct slice {
    const uint8_t *bytes;
    size_t length;
};

/* The longest sheet has 34,850 bytes; one that is longer than this is refused as well when it is cut. */
#define SHEET_ROOM 65536
/* Sheets that fit the comparison's 8,192 cells have no first counter-show that is longer. */
#define OPENING_ROOM 1024
#define LOOP_ROOM 8192

static const uint8_t sheet_a[] = {2, 1, 1, 0, 0, 0, 0, 1};
static const uint8_t sheet_b[] = {2, 1, 2, 0, 0, 1, 0, 1, 1, 0, 1};

static void print_word(const char *part, struct slice word)
{
    printf("%s", part);
    if (word.length == 0)
        printf(" -");
    for (size_t at = 0; at < word.length; at++)
        printf(" %u", (unsigned)word.bytes[at]);
}

static void print_show(const char *name, struct slice opening, struct slice loop)
{
    printf("%s: ", name);
    print_word("opening", opening);
    print_word(", loop", loop);
    printf("\n");
}

/* Says so and returns 1 if the answer is a refusal. */
static int print_refusal(const uint8_t *answer)
{
    static const char *const parts[] = {"first", "second", "opening", "loop", "out", "work", "cursor"};
    if (fdfa_number(answer, 0) == 0)
        return 0;
    printf("refused %" PRIu64 " %s %" PRIu64 "\n", fdfa_number(answer, 0), parts[fdfa_number(answer, 1)], fdfa_number(answer, 2));
    return 1;
}

static void judge(const char *name, struct slice sheet, struct slice opening, struct slice loop)
{
    uint8_t answer[FDFA_VERDICT_BYTES];
    if (fdfa_verdict(sheet.bytes, sheet.length, opening.bytes, opening.length, loop.bytes, loop.length, answer, sizeof answer) != 1)
        abort(); /* only if the answer slice were too short */
    printf("%s: ", name);
    if (print_refusal(answer))
        return;
    printf("%s, i %" PRIu64 ", j %" PRIu64 ", place %" PRIu64 ", loop place at the end %" PRIu64 "\n",
           fdfa_number(answer, 1) == 1 ? "accepted" : "rejected",
           fdfa_number(answer, 2), fdfa_number(answer, 3), fdfa_number(answer, 4), fdfa_number(answer, 5));
}

static void compare(struct slice first, struct slice second)
{
    static uint8_t opening_room[OPENING_ROOM], loop_room[LOOP_ROOM];
    uint8_t answer[FDFA_COMPARE_BYTES];
    if (fdfa_compare(first.bytes, first.length, second.bytes, second.length,
                     opening_room, sizeof opening_room, loop_room, sizeof loop_room, answer, sizeof answer) != 1)
        abort();
    printf("first in second: ");
    if (print_refusal(answer))
        return;
    printf("%s, pairs of places reached %" PRIu64 "\n", fdfa_number(answer, 1) == 1 ? "missing" : "contained", fdfa_number(answer, 2));
    if (fdfa_number(answer, 1) == 1) {
        struct slice opening = {opening_room, fdfa_number(answer, 3)};
        struct slice loop = {loop_room, fdfa_number(answer, 4)};
        print_show("counter-show", opening, loop);
        printf("  first waits %" PRIu64 ", ends %" PRIu64 "; second waits %" PRIu64 ", ends %" PRIu64 "\n",
               fdfa_number(answer, 5), fdfa_number(answer, 6), fdfa_number(answer, 7), fdfa_number(answer, 8));
        judge("  first", first, opening, loop);
        judge("  second", second, opening, loop);
    }
}

/* Reads a file into the room; leaves the program if that cannot be done. */
static struct slice load(const char *path, uint8_t *room)
{
    FILE *file = fopen(path, "rb");
    if (file == NULL) {
        perror(path);
        exit(2);
    }
    struct slice sheet = {room, fread(room, 1, SHEET_ROOM, file)};
    if (ferror(file)) {
        perror(path);
        exit(2);
    }
    fclose(file);
    return sheet;
}

int main(int count, char **words)
{
    static uint8_t first_room[SHEET_ROOM], second_room[SHEET_ROOM];
    static const uint8_t scene[] = {0};
    struct slice first = {sheet_a, sizeof sheet_a};
    struct slice second = {sheet_b, sizeof sheet_b};
    if (count == 3) {
        first = load(words[1], first_room);
        second = load(words[2], second_room);
    } else if (count != 1) {
        fprintf(stderr, "usage: player [FIRST SECOND]\n");
        return 2;
    }
    struct slice opening = {NULL, 0}; /* an empty slice may have any pointer */
    struct slice loop = {scene, sizeof scene};
    print_show("show", opening, loop);
    judge("  first", first, opening, loop);
    judge("  second", second, opening, loop);
    compare(first, second);
    return 0;
}
