/* What adderbloom.h brings by itself, tried: a text for every refusal, the verdict over an account beside lr800_verdict, where a search keeps a symbol,
 * the version in its two forms. Prints what is wrong, and then ends with 1. */
#include "adderbloom.h"
#include <inttypes.h>
#include <stdio.h>
#include <string.h>

static int wrong;

static void must(int holds, const char *what, uint32_t number) {
    if (holds) return;
    fprintf(stderr, "inline: %s: %" PRIu32 "\n", what, number);
    wrong = 1;
}

static int is_number(uint32_t n) {
    return n <= LR800_SHORT_RUN || n == LR800_MORE_THAN_ONE || n == LR800_TOO_MANY_SYMBOLS;
}

/* each its own, and one for every number that is none */
static void try_texts(void) {
    static const uint32_t far[] = {LR800_TOO_MANY_SYMBOLS + 256, (uint32_t)1 << 31, UINT32_MAX};
    const char *none = lr800_refusal_text(UINT32_MAX);
    for (uint32_t n = 0; n <= 2 * LR800_TOO_MANY_SYMBOLS; n++) {
        const char *text = lr800_refusal_text(n);
        must(text[0] != '\0' && strchr(text, '\n') == NULL, "not one line of text", n);
        must((strcmp(text, none) == 0) == !is_number(n), "a number that is none has a text of its own, or one that is has none", n);
        for (uint32_t m = 0; m < n; m++) must(!is_number(n) || strcmp(text, lr800_refusal_text(m)) != 0, "the text of a number before it", n);
    }
    for (int i = 0; i < 3; i++) must(strcmp(lr800_refusal_text(far[i]), none) == 0, "another text than that of a number that is none", far[i]);
}

/* three frames, and each of their numbers another once, whether it counts or not; tallies of all their words; two frames; one frame and none, which are never
 * measured, not even by tallies that are right round 2^64; and at last three frames' tallies whose total is right only round 2^64 */
static const struct {
    lr800_account account;
    uint32_t asked, allowed, stopped, verdict;
} cases[] = {
    {{7, 4, 3, 0, 625, 46, 30, 3}, 3, 3, 0, LR800_PASS},
    {{8, 4, 3, 0, 625, 46, 30, 3}, 3, UINT32_MAX, 0, LR800_PASS},
    {{7, 5, 3, 0, 625, 46, 30, 3}, 3, 3, 0, LR800_PASS},
    {{7, 4, 3, 0, 625, 46, 30, 3}, 3, 2, 0, LR800_FAIL},
    {{7, 4, 3, 0, 3, 46, 30, 625}, 3, 3, 0, LR800_FAIL},
    {{7, 4, 3, 0, 625, 46, 30, 3}, 3, 3, 1, LR800_NOT_MEASURED},
    {{7, 4, 3, 0, 625, 46, 30, 3}, 3, 3, UINT32_MAX, LR800_NOT_MEASURED},
    {{7, 4, 3, 0, 625, 46, 30, 3}, 4, 3, 0, LR800_NOT_MEASURED},
    {{7, 4, 2, 1, 625, 46, 30, 3}, 3, 3, 0, LR800_NOT_MEASURED},
    {{7, 4, 3, 1, 625, 46, 30, 3}, 3, 3, 0, LR800_NOT_MEASURED},
    {{7, 4, 0, 3, 0, 0, 0, 0}, 3, 3, 0, LR800_NOT_MEASURED},
    {{7, 4, 3, 0, 624, 46, 30, 3}, 3, 3, 0, LR800_NOT_MEASURED},
    {{7, 4, 3, 0, 625, 47, 30, 3}, 3, 3, 0, LR800_NOT_MEASURED},
    {{7, 4, 3, 0, 625, 46, 31, 3}, 3, 3, 0, LR800_NOT_MEASURED},
    {{7, 4, 3, 0, 625, 46, 30, 2}, 3, 3, 0, LR800_NOT_MEASURED},
    {{7, 4, 3, 0, 1073, 46, 30, 3}, 3, 3, 0, LR800_NOT_MEASURED},
    {{6, 4, 2, 0, 320, 0, 0, 0}, 2, 0, 0, LR800_PASS},
    {{6, 4, 2, 0, 0, 0, 0, 320}, 2, 319, 0, LR800_FAIL},
    {{6, 4, 2, 0, 0, 0, 0, 0}, 2, 0, 0, LR800_NOT_MEASURED},
    {{6, 4, 2, 0, 768, 0, 0, 0}, 2, 0, 0, LR800_NOT_MEASURED},
    {{5, 4, 1, 0, 0, 0, 0, 0}, 1, 0, 0, LR800_NOT_MEASURED},
    {{5, 4, 1, 0, 384, 0, 0, 0}, 1, 0, 0, LR800_NOT_MEASURED},
    {{5, 4, 1, 0, UINT64_MAX - 63, 0, 0, 0}, 1, 0, 0, LR800_NOT_MEASURED},
    {{0, 0, 0, 0, 0, 0, 0, 0}, 0, 0, 0, LR800_NOT_MEASURED},
    {{0, 0, 0, 0, UINT64_MAX - 447, 0, 0, 0}, 0, 0, 0, LR800_NOT_MEASURED},
    {{7, 4, 3, 0, UINT64_MAX, 705, 0, 0}, 3, 3, 0, LR800_NOT_MEASURED},
};

static void try_verdicts(void) {
    for (uint32_t n = 0; n < sizeof cases / sizeof cases[0]; n++) {
        const lr800_account *a = &cases[n].account;
        uint32_t asked = cases[n].asked, allowed = cases[n].allowed, stopped = cases[n].stopped;
        uint32_t said = lr800_account_verdict(a, asked, allowed, stopped);
        must(said == lr800_verdict(asked, allowed, a->accepted, a->missing, a->clean, a->one, a->two, a->flagged, stopped), "not lr800_verdict's, case", n);
        must(said == cases[n].verdict, "another verdict, case", n);
    }
}

/* as many symbols in a row as are kept, from one on whose place is known by column and row, of 64 columns of 96: each has the place that counting leads to, and
 * none that of another; and where 2^64 is not passed, the symbol so many behind it has the same */
static void try_places(uint64_t from, uint32_t column, uint32_t row) {
    uint8_t there[LR800_HUNT_KEPT] = {0};
    for (uint32_t j = 0; j < LR800_HUNT_KEPT; j++) {
        uint64_t n = from + j;
        size_t place = lr800_hunt_place(n);
        must(place < LR800_HUNT_KEPT, "a place beyond what is kept, symbol", (uint32_t)n);
        must(place == 96 * column + row, "another place, symbol", (uint32_t)n);
        if (place < LR800_HUNT_KEPT) must(there[place]++ == 0, "the place of another symbol, symbol", (uint32_t)n);
        if (n <= UINT64_MAX - LR800_HUNT_KEPT) must(lr800_hunt_place(n + LR800_HUNT_KEPT) == place, "another place than a round later, symbol", (uint32_t)n);
        if (++column == 64) column = 0, row = (row + 1) % 96;
    }
}

/* 2^32 and 2^64 are 4,096 more than multiples of 6,144: so they, and numbers a multiple of 6,144 below them, are in column 0 and row 64 */
static void try_all_places(void) {
    try_places(0, 0, 0);
    try_places(1, 1, 0);
    try_places(LR800_HUNT_KEPT - 1, 63, 95);
    try_places(3 * LR800_HUNT_KEPT + 64 * 17 + 5, 5, 17);
    try_places(UINT32_MAX, 63, 63);
    try_places((uint64_t)UINT32_MAX + 1, 0, 64);
    try_places(UINT64_MAX - 3 * LR800_HUNT_KEPT + 1, 0, 64);
    try_places(UINT64_MAX - 2 * LR800_HUNT_KEPT + 1, 0, 64);
    try_places(UINT64_MAX - LR800_HUNT_KEPT - 63, 0, 63);
    try_places(UINT64_MAX - LR800_HUNT_KEPT, 63, 63);
    try_places(UINT64_MAX - LR800_HUNT_KEPT + 1, 0, 64); /* the last is 2^64 - 1 */
}

static void try_version(void) {
    char text[40];
    snprintf(text, sizeof text, "%d.%d.%d", LR800_VERSION_MAJOR, LR800_VERSION_MINOR, LR800_VERSION_PATCH);
    must(strcmp(text, LR800_VERSION) == 0, "LR800_VERSION is not made of the three numbers, the first", LR800_VERSION_MAJOR);
}

int main(void) {
    try_texts();
    try_verdicts();
    try_all_places();
    try_version();
    return wrong;
}
