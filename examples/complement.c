/*
 * Complements a rule sheet: reads its text, turns every mark, and writes the text at the same level with the same seconds.
 *
 *     complement [TEXT]    of the file TEXT, else of standard input, to standard output
 *
 * The exit status is 1 if the text is refused, 2 if a file cannot be read or written. Build it against the installed library:
 *
 *     cc complement.c $(pkg-config --cflags --libs fdfa) -o complement
 */
#include <fdfa.h>

#include <inttypes.h>
#include <stdio.h>
#include <stdlib.h>

/* A text that is longer is refused as well when it is cut. */
#define TEXT_ROOM (FDFA_LONGEST_TEXT + 1)
/* No sheet has more scenes. */
#define SCENES 32

/* Leaves the program if a call has not given an answer: `returned` is 1 unless the answer slice was too short. */
static void expect_given(uint32_t returned, const uint8_t *answer)
{
    static const char *const parts[] = {"first", "second", "opening", "loop", "out", "work", "cursor", "seconds"};
    if (returned != 1)
        abort();
    if (fdfa_number(answer, 0) != FDFA_GIVEN) {
        fprintf(stderr, "refused %" PRIu64 " %s %" PRIu64 "\n",
                fdfa_number(answer, 0), parts[fdfa_number(answer, 1)], fdfa_number(answer, 2));
        exit(1);
    }
}

static void leave_with_error(const char *name)
{
    perror(name);
    exit(2);
}

int main(int count, char **words)
{
    static uint8_t text[TEXT_ROOM], sheet[FDFA_LONGEST_SHEET], complement[FDFA_LONGEST_SHEET];
    uint16_t seconds[SCENES] = {0};
    uint8_t read[FDFA_SHEET_READ_BYTES], turned[FDFA_COMPLEMENT_BYTES], written[FDFA_SHEET_WRITE_BYTES];

    if (count > 2) {
        fprintf(stderr, "usage: complement [TEXT]\n");
        return 2;
    }
    const char *name = count == 2 ? words[1] : "standard input";
    FILE *file = count == 2 ? fopen(name, "rb") : stdin;
    if (file == NULL)
        leave_with_error(name);
    size_t length = fread(text, 1, sizeof text, file);
    if (ferror(file))
        leave_with_error(name);
    if (file != stdin)
        fclose(file);

    expect_given(fdfa_sheet_read(text, length, sheet, sizeof sheet, seconds, SCENES, read, sizeof read), read);
    uint64_t level = fdfa_number(read, 1);
    expect_given(fdfa_complement(sheet, fdfa_number(read, 2), complement, sizeof complement, turned, sizeof turned), turned);
    expect_given(fdfa_sheet_write(level, complement, fdfa_number(turned, 1), seconds, SCENES, text, sizeof text, written, sizeof written),
                 written);

    length = fdfa_number(written, 1);
    if (fwrite(text, 1, length, stdout) != length || fflush(stdout) != 0)
        leave_with_error("standard output");
    return 0;
}
