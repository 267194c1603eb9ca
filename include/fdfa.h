/*
 * Rule sheets (families of DFAs) and the shows that they admit: every call of the library, for C.
 *
 * A show is an opening, which may be empty, and a loop, which may not: scenes of one byte each, from 0 up to one less
 * than the sheet's scene count. A packed sheet is bytes: the scene count s; the number n of leading places; the sizes
 * k(0) to k(n-1) of the loop automata; n x s leading next places, place by place and scene by scene; then for each
 * place q its k(q) x s loop next places and k(q) marks, 0 or 1. Counts are from 1 to 32, so a sheet has at most
 * FDFA_LONGEST_SHEET bytes. Place 0 is the start everywhere.
 *
 * The closing numbers of a show, i from 0 and j from 1, are the smallest for which the leading place after the opening
 * and i turns of the loop is that after i + j turns; the show closes if i is 0 and j is 1. It is accepted if j turns of
 * the loop lead from loop place 0 to a marked place, in the loop automaton of that leading place. Of two shows the
 * first is the one with the shorter opening, or the smaller scene where the openings first differ; for equal openings
 * the same of the loops. A sheet waits at the leading place after the opening, and ends at the loop place after one
 * turn. Of two sheets N is n1 x n2 and K the largest k1 times the largest k2, of one sheet n and its largest k; R is
 * how many of these N some opening reaches. A first counter-show has at most N - 1 scenes of opening and N x K of loop.
 *
 * A sheet is steady if further turns leave every verdict alone: with a turns of the loop added to the opening, a from
 * 0, and a loop of b turns, b from 1, a show is judged as before.
 *
 * A slice is a pointer and a length in cells: bytes, or numbers of 16 or 64 bits, aligned as their type asks. The
 * pointer of an empty slice may be anything, NULL too; any other points to that many readable cells, and to writable
 * ones where it is not const. A slice that a call writes may not overlap any other slice of the call; slices that are
 * only read may. A call keeps no pointer, allocates nothing, needs no call before it and shares nothing with others:
 * any number may run at once on slices of their own.
 *
 * Cells may hold anything: what is at fault is told as a refusal, and a refused call changes no slice but the answer
 * (one exception: at 23 the work cells are cleared as after an answer). Refusals are listed below in the order in which
 * they are judged; in a text the smallest place goes first. A packed sheet is judged for 1 (two bytes), 2, 3, 1 (the
 * sizes), 4, 1 (the whole), then for the first byte that is 5 or 6.
 *
 * Every call fills the first bytes of its answer slice, as many as its constant FDFA_.._BYTES says, with numbers of 8
 * bytes, low byte first: 0, the answer's numbers and zeros, or the refusal's number, part and place and zeros.
 * fdfa_number reads one of them. A call returns 1, or 0 if the answer slice is too short, when nothing at all is
 * changed.
 *
 * Stack: fdfa_compare_in and fdfa_emptiness take up to 1,280 KiB whatever the sheets, fdfa_compare 256, fdfa_sheet_read
 * 128, every other call 64. For x86-64 Linux, C99 or C++; the archive needs memcpy and memset, nothing else, and has no
 * unwind tables.
 */
#ifndef FDFA_H
#define FDFA_H

#include <stddef.h>
#include <stdint.h>

#ifdef __cplusplus
extern "C" {
#endif

/* Numbers go in as size_t and come back from fdfa_number as uint64_t. */
typedef char fdfa_size_t_has_64_bits[sizeof(size_t) == 8 ? 1 : -1];

/* The longest packed sheet, and the longest text of one. */
#define FDFA_LONGEST_SHEET 34850
#define FDFA_LONGEST_TEXT 109630

/* The longest cart. */
#define FDFA_LONGEST_CART 8388737

/* How many bytes of answer each call takes. */
#define FDFA_VERDICT_BYTES 48
#define FDFA_COMPARE_BYTES 72
#define FDFA_CHECK_BYTES 32
#define FDFA_COMPLEMENT_BYTES 24
#define FDFA_INTERSECTION_BYTES 24
#define FDFA_UNION_BYTES 24
#define FDFA_COMPARE_IN_BYTES 72
#define FDFA_EMPTINESS_BYTES 72
#define FDFA_CURSOR_START_BYTES 24
#define FDFA_CURSOR_STEP_BYTES 32
#define FDFA_CURSOR_REST_BYTES 32
#define FDFA_PASS_START_BYTES 32
#define FDFA_PASS_ON_BYTES 32
#define FDFA_NUMBER_READ_BYTES 24
#define FDFA_SHEET_READ_BYTES 24
#define FDFA_SHEET_WRITE_BYTES 24
#define FDFA_SHOW_READ_BYTES 24
#define FDFA_SHOW_WRITE_BYTES 24
#define FDFA_IMPORT_BYTES 24
#define FDFA_DURATIONS_BYTES 24
#define FDFA_CART_BYTES 24

/* The part that a refusal concerns; a cursor is in FDFA_OPENING or FDFA_LOOP. */
enum fdfa_part {
    FDFA_FIRST = 0,
    FDFA_SECOND = 1,
    FDFA_OPENING = 2,
    FDFA_LOOP = 3,
    FDFA_OUT = 4,
    FDFA_WORK = 5,
    FDFA_CURSOR = 6,
    FDFA_SECONDS = 7
};

/* The number of a refusal, and what its place is. */
enum fdfa_refusal {
    FDFA_GIVEN = 0,             /* not a refusal: the answer follows */
    FDFA_BAD_LENGTH = 1,        /* a packed sheet has not the length that its counts ask for; the length that it has */
    FDFA_BAD_SCENES = 2,        /* the scene count is not from 1 to 32; its byte */
    FDFA_BAD_PLACES = 3,        /* the number of leading places is not from 1 to 32 (of a drawn automaton 16); its byte */
    FDFA_BAD_LOOPS = 4,         /* the size of a loop automaton is not from 1 to 32; its byte */
    FDFA_BAD_NEXT = 5,          /* a next place, or an accepting one, is not below its automaton's size; its byte */
    FDFA_BAD_MARK = 6,          /* a mark is neither 0 nor 1; its byte */
    FDFA_SCENES_DIFFER = 7,     /* two sheets have different scene counts; 0 of the second */
    FDFA_LOOP_EMPTY = 8,        /* a loop has no scene; 0, the text's length, or where it should begin */
    FDFA_SCENE_UNKNOWN = 9,     /* a scene is not below the scene count; its position, or its byte in a text or cart */
    FDFA_BAD_LEVEL = 10,        /* the level is neither 3 nor 4; its byte, or 0 of a call that takes it as a number */
    FDFA_BAD_TEXT = 11,         /* a text departs from its layout or ends early; that byte, or the length */
    FDFA_OUT_OF_TURN = 12,      /* a row or line of a text is not one that is due; its number's byte */
    FDFA_NONE_ACCEPTING = 13,   /* a drawn automaton has no accepting place; the text's length */
    FDFA_BAD_SECONDS = 14,      /* seconds are not from 1 to 999; their byte, or the cell's position */
    FDFA_PRODUCT_TOO_LARGE = 20, /* a product would have more than 32 places, or a loop automaton of more; how many */
    FDFA_OUT_TOO_SHORT = 21,    /* a slice is too short; the length needed */
    FDFA_WORK_TOO_SHORT = 22,   /* there are fewer work cells than the search needs; the cells needed */
    FDFA_SHOW_TOO_LONG = 23,    /* the show found is longer than its slice; the length needed */
    FDFA_CURSOR_OUTSIDE = 24,   /* a cursor's position is not below the length of its part; the position */
    FDFA_PART_TOO_LONG = 26,    /* a part of a show has more than 65,536 scenes; 65,536 */
    FDFA_BAD_COUNT = 27,        /* a cart's count of shows is not from 1 to 64; 0 */
    FDFA_BAD_CART = 28          /* a cart has not the length that its count and headers ask for; its length */
};

/* Number `index` of an answer. */
static inline uint64_t fdfa_number(const uint8_t *answer, size_t index)
{
    uint64_t value = 0;
    for (size_t at = 8; at > 0; at--)
        value = value << 8 | answer[8 * index + at - 1];
    return value;
}

/* ---- Players ---- */

/*
 * Whether the sheet accepts the show (opening, loop), with its closing numbers.
 * Answer: 1 accepted or 0 rejected, i, j, leading place, loop place at the end.
 * Refusals: 1 to 6 (first), 9 (opening), 8, 9 (loop).
 */
uint32_t fdfa_verdict(const uint8_t *sheet, size_t sheet_len,
                      const uint8_t *opening, size_t opening_len,
                      const uint8_t *loop, size_t loop_len,
                      uint8_t *answer, size_t answer_len);

/*
 * Whether every show that closes in both sheets and is accepted by the first is accepted by the second; if not, the
 * first counter-show is written from the start of opening and loop, where both parts fit: 1,023 and 8,191 cells
 * suffice. It brings 8,192 work cells of its own, and takes at most some tenths of a second.
 * Answer: 0 contained or 1 missing, R, length of the opening, length of the loop, first waits, first ends, second
 * waits, second ends.
 * Refusals: 1 to 6 (first), 1 to 7 (second), 22 (work), 23 (opening, else loop).
 */
uint32_t fdfa_compare(const uint8_t *first, size_t first_len,
                      const uint8_t *second, size_t second_len,
                      uint8_t *opening, size_t opening_len,
                      uint8_t *loop, size_t loop_len,
                      uint8_t *answer, size_t answer_len);

/* ---- Sheets ---- */

/*
 * Whether bytes are a packed sheet. Answer: scenes, leading places, largest loop automaton. Refusals: 1 to 6 (first).
 */
uint32_t fdfa_check(const uint8_t *sheet, size_t sheet_len,
                    uint8_t *answer, size_t answer_len);

/* The sheet with every mark turned, to out. Answer: length. Refusals: 1 to 6 (first), 21 (out). */
uint32_t fdfa_complement(const uint8_t *sheet, size_t sheet_len,
                         uint8_t *out, size_t out_len,
                         uint8_t *answer, size_t answer_len);

/*
 * The product of two sheets, marked where both are, to out. A show that closes in both sheets is accepted exactly if
 * both accept it; any other show is too, where both sheets are steady. The pair of places p and q has the number p x n2
 * + q, loop places alike. Answer: length.
 * Refusals: 1 to 6 (first), 1 to 7 (second), 20, 21 (out).
 */
uint32_t fdfa_intersection(const uint8_t *first, size_t first_len,
                           const uint8_t *second, size_t second_len,
                           uint8_t *out, size_t out_len,
                           uint8_t *answer, size_t answer_len);

/* The same, marked where either is, for shows that either accepts. */
uint32_t fdfa_union(const uint8_t *first, size_t first_len,
                    const uint8_t *second, size_t second_len,
                    uint8_t *out, size_t out_len,
                    uint8_t *answer, size_t answer_len);

/* ---- Searches in lent cells ---- */

/*
 * fdfa_compare in lent work cells: N + N x K of them, at most 1,049,600, which refusal 22 has as its place. After an
 * answer or 23 they are 0, cells behind them as before. The time grows with R x N x K x s: of the largest sheets it is
 * some half a minute. Answer and refusals as fdfa_compare's.
 */
uint32_t fdfa_compare_in(const uint8_t *first, size_t first_len,
                         const uint8_t *second, size_t second_len,
                         uint8_t *opening, size_t opening_len,
                         uint8_t *loop, size_t loop_len,
                         uint64_t *work, size_t work_len,
                         uint8_t *answer, size_t answer_len);

/*
 * Whether the sheet accepts no show at all; if not, the first accepted show that closes is written. N + N x K work
 * cells, as above, at most 1,056; 31 cells of opening and 1,024 of loop suffice.
 * Answer: 0 empty or 1 found, R, then as fdfa_compare's, 0 for the second sheet.
 * Refusals: 1 to 6 (first), 22 (work), 23 (opening, else loop).
 */
uint32_t fdfa_emptiness(const uint8_t *sheet, size_t sheet_len,
                        uint8_t *opening, size_t opening_len,
                        uint8_t *loop, size_t loop_len,
                        uint64_t *work, size_t work_len,
                        uint8_t *answer, size_t answer_len);

/* ---- Walking along a show ---- */

/* The cursor before the first scene. Answer: part, position. Never refused. */
uint32_t fdfa_cursor_start(const uint8_t *opening, size_t opening_len,
                           uint8_t *answer, size_t answer_len);

/*
 * One scene further. Answer: the scene passed, then part and position of the cursor moved.
 * Refusals: 8 (loop), 24 (cursor); the cursor stays as it is. A part that is neither FDFA_OPENING nor FDFA_LOOP has no
 * positions: 24.
 */
uint32_t fdfa_cursor_step(size_t part, size_t position,
                          const uint8_t *opening, size_t opening_len,
                          const uint8_t *loop, size_t loop_len,
                          uint8_t *answer, size_t answer_len);

/*
 * The rest of the part that the cursor is in. Answer: part, offset, length. Never refused: where a step would be, it is
 * the empty part at the opening's start.
 */
uint32_t fdfa_cursor_rest(size_t part, size_t position,
                          const uint8_t *opening, size_t opening_len,
                          const uint8_t *loop, size_t loop_len,
                          uint8_t *answer, size_t answer_len);

/*
 * The pass over an opening that comes in parts: what it holds before the first scene.
 * Answer: 0 as long as every scene was known, else 1; the leading place reached, 0 once failed; how many scenes were
 * passed, or the position of the first unknown one, counted from the opening's start. Never refused.
 */
uint32_t fdfa_pass_start(uint8_t *answer, size_t answer_len);

/*
 * The pass goes on over a part, from the three numbers that it held (a failed that is not 0 counts as 1). Answer as
 * above. Refusals: 1 to 6 (first). A place that is not below n counts as failed at the position given, and a failed
 * pass comes back as it is. A position of more than 64 bits is told as the largest number.
 */
uint32_t fdfa_pass_on(const uint8_t *sheet, size_t sheet_len,
                      size_t failed, size_t state, size_t position,
                      const uint8_t *piece, size_t piece_len,
                      uint8_t *answer, size_t answer_len);

/* ---- Texts (docs/TEXTS.md) ---- */

/*
 * The number at a place of a text. Answer: its value, the place after it. Refusal: 11 (first), behind the text at its
 * length.
 */
uint32_t fdfa_number_read(const uint8_t *text, size_t text_len,
                          size_t place,
                          uint8_t *answer, size_t answer_len);

/*
 * The packed sheet of a text to out and, at level four, the seconds of its scenes to seconds. Answer: level, length.
 * Refusals: 2 to 6, 10 to 12, 14 (first), 21 (out), 21 (seconds).
 */
uint32_t fdfa_sheet_read(const uint8_t *text, size_t text_len,
                         uint8_t *out, size_t out_len,
                         uint16_t *seconds, size_t seconds_len,
                         uint8_t *answer, size_t answer_len);

/*
 * The text of a packed sheet to out, at level 3 or 4; the seconds count at level 4 only. Answer: length.
 * Refusals: 10, 1 to 6 (first), 21, 14 (seconds), 21 (out).
 */
uint32_t fdfa_sheet_write(size_t level,
                          const uint8_t *sheet, size_t sheet_len,
                          const uint16_t *seconds, size_t seconds_len,
                          uint8_t *out, size_t out_len,
                          uint8_t *answer, size_t answer_len);

/*
 * The show of a text, to opening and loop; scenes are from 0 to 31, whatever the sheet. Answer: both lengths.
 * Refusals: 9, 11, and at the text's length 11 before 8 (first), 21 (opening), 21 (loop).
 */
uint32_t fdfa_show_read(const uint8_t *text, size_t text_len,
                        uint8_t *opening, size_t opening_len,
                        uint8_t *loop, size_t loop_len,
                        uint8_t *answer, size_t answer_len);

/* The text of a show to out, scenes from 0 to 31. Answer: length. Refusals: 9 (opening), 8, 9 (loop), 21 (out). */
uint32_t fdfa_show_write(const uint8_t *opening, size_t opening_len,
                         const uint8_t *loop, size_t loop_len,
                         uint8_t *out, size_t out_len,
                         uint8_t *answer, size_t answer_len);

/*
 * The packed sheet of a drawn (deterministic Buchi) automaton's text, to out: it accepts a show exactly if the
 * automaton's run on it enters accepting places without end. With n places every loop automaton has 2n: in that of q,
 * place r with flag f, whether an accepting one was entered, has the number 2 x ((r + n - q) mod n) + f, marked where f
 * is 1. Answer: length.
 * Refusals: 2, 3, 11 to 13, then 5 (first), 21 (out).
 */
uint32_t fdfa_import(const uint8_t *text, size_t text_len,
                     uint8_t *out, size_t out_len,
                     uint8_t *answer, size_t answer_len);

/*
 * The running sheet of a show, to out: a line of the words `part scene seconds`; for each scene of the opening, then of
 * the loop, a line such as `opening 3 120`; a line `opening loop`; and a line of two totals, each the sum of the
 * seconds on that part's lines. Scene a lasts seconds[a], so seconds_len is the number of scenes: of a sheet's text
 * pass the first s cells that fdfa_sheet_read filled at level 4, where s is the packed sheet's first byte, and none at
 * level 3. From 256 cells on every byte is a scene. 50 + 16 x opening_len + 13 x loop_len bytes of out are enough, and
 * 1,900,594 for every show; cells of out behind the text stay. The time grows with opening_len + loop_len +
 * seconds_len. Answer: length.
 * Refusals: 9 (opening), 8, 9 (loop), 14 (seconds; every cell is judged, that of a scene not shown too), 26 (opening,
 * else loop), 21 (out).
 */
uint32_t fdfa_durations(const uint8_t *opening, size_t opening_len,
                        const uint8_t *loop, size_t loop_len,
                        const uint16_t *seconds, size_t seconds_len,
                        uint8_t *out, size_t out_len,
                        uint8_t *answer, size_t answer_len);

/* ---- Carts ---- */

/*
 * Loads a cart: where the sheet accepts every show of it, its cart_len bytes are copied to out, whose cells behind them
 * stay; else out stays as it was. A cart is a count byte, from 1 to 64, then for each show the lengths of opening and
 * loop, 16 bits each, low byte first, then its scenes, opening before loop; it has at most FDFA_LONGEST_CART bytes. The
 * time is that of one look at every scene and of a verdict on each show up to the first that is rejected.
 * Answer: 1 loaded and cart_len, or 0 rejected and the index of the first show that is rejected, from 0.
 * Refusals: 1 to 6 (first), 28 (no byte), 27, 28 (second), then show by show 9 (opening), 8, 9 (loop), whose places
 * count from the cart's first byte, 8 where the loop should begin; 21 (out).
 */
uint32_t fdfa_cart(const uint8_t *sheet, size_t sheet_len,
                   const uint8_t *cart, size_t cart_len,
                   uint8_t *out, size_t out_len,
                   uint8_t *answer, size_t answer_len);

#ifdef __cplusplus
}
#endif

#endif
