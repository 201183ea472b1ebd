/* A target for libFuzzer: what must hold of any input, asked of every function of the archive. Built and run by `host/stress fuzz`.
 *
 * An input is CONTROL bytes, from which lengths, places and stored numbers are taken, and then a capture, which also fills the buffers and is searched as a run
 * of symbols. The archive has no coverage counters of its own: what it answers is told to libFuzzer by `mark`, and the mutator at the end knows what a record
 * is.
 *
 * Buffers stand between two pages that cannot be touched, at the one or at the other, so that a read beyond them ends the program, too. With -DEXACT every
 * buffer is a block of its own and of its very length, for valgrind. With -DALONE the program runs over the files named, without libFuzzer. */
#define _DEFAULT_SOURCE
#include "adderbloom.h"
#include <inttypes.h>
#include <stdio.h>
#include <stdlib.h>
#include <string.h>
#include <sys/mman.h>

enum { NUMBERS = 19, CONTROL = 8 * NUMBERS, PAGE = 4096, GUARD = 0xA5, PILOTS = 96, NO_LOCK = 25, LONGEST = 60000 };
enum { FILL = 448 }; /* words that still carry the zeros of the sender's store: all of the frame at the start number, and 64 of the next */

/* the control numbers: the first byte by byte, the others whole; the account's seven stand in its own order, the first its two numbers of a frame: the start
 * number in the upper half and the expected one in the lower */
enum { CHOICES, PLACE, ACCOUNT, FIGURES = ACCOUNT + 7, GOT, ROOM, STOPPED, BITS, TRAFFIC, FED, FOUND, PIECES };
enum { SIDE, INPUT_LENGTH, STORE_LENGTH, OUTPUT_LENGTH, FLAGS_LENGTH, STORE_FROM, RAW_FLAGS, COUNTS_LENGTH };

#define MUST(holds) ((holds) ? (void)0 : broken(#holds, __LINE__))

static void broken(const char *what, int line) {
    fprintf(stderr, "fuzz.c:%d: does not hold: %s\n", line, what);
    abort();
}

/* ---- What libFuzzer is told ---- */

enum { READ_AS, RECEIVED, SENT, ENTERED, LOST, STEPPED, JUDGED, STEPS, PILOTS_WRONG, WORDS_ONE, WORDS_TWO, WORDS_FLAGGED, REPORTED, EXAMINED, MADE,
       CHECKED, HUNTED, TAKEN_IN, MARKS };

#ifndef ALONE
__attribute__((section("__libfuzzer_extra_counters")))
#endif
static uint8_t marks[64 * MARKS];

static void mark(unsigned what, uint64_t value) {
    marks[64 * what + (value < 63 ? value : 63)] = 1;
}

static uint64_t size_of_number(uint64_t n) {
    uint64_t bits = 0;
    while (n) bits++, n >>= 1;
    return bits;
}

/* ---- Buffers ---- */

typedef struct {
    uint8_t *room, *lent;
    size_t size, length;
} fence;

static int at_the_end; /* which side of its room a buffer stands at */

/* A buffer of so many bytes, each of them the filler. */
static uint8_t *lend(fence *f, size_t length, uint8_t filler) {
#ifdef EXACT
    free(f->lent);
    f->lent = length ? malloc(length) : NULL;
    MUST(f->lent || !length);
#else
    if (!f->room) {
        f->size = (LONGEST + PAGE - 1) / PAGE * PAGE;
        f->room = mmap(NULL, f->size + 2 * PAGE, PROT_READ | PROT_WRITE, MAP_PRIVATE | MAP_ANONYMOUS, -1, 0);
        MUST(f->room != MAP_FAILED);
        MUST(mprotect(f->room, PAGE, PROT_NONE) == 0 && mprotect(f->room + PAGE + f->size, PAGE, PROT_NONE) == 0);
        f->room += PAGE;
    }
    MUST(length <= f->size);
    f->lent = at_the_end ? f->room + f->size - length : f->room;
    memset(at_the_end ? f->lent - PAGE / 4 : f->lent + length, GUARD, PAGE / 4);
#endif
    f->length = length;
    if (length) memset(f->lent, filler, length);
    return length ? f->lent : NULL; /* no bytes may come as a null pointer */
}

static uint8_t *lend_filled(fence *f, size_t length, const uint8_t *from, size_t from_length) {
    uint8_t *to = lend(f, length, 0);
    size_t n = length < from_length ? length : from_length;
    if (n) memcpy(to, from, n);
    return to;
}

/* no byte beside it was written */
static void check_fence(const fence *f) {
#ifdef EXACT
    (void)f;
#else
    const uint8_t *beside = at_the_end ? f->lent - PAGE / 4 : f->lent + f->length;
    for (size_t i = 0; i < PAGE / 4; i++) MUST(beside[i] == GUARD);
#endif
}

static int same_bytes(const uint8_t *a, const uint8_t *b, size_t length) {
    return length == 0 || memcmp(a, b, length) == 0;
}

static int all_are(const uint8_t *bytes, size_t length, uint8_t value) {
    for (size_t i = 0; i < length; i++)
        if (bytes[i] != value) return 0;
    return 1;
}

/* ---- The input ---- */

static const uint8_t *capture;
static size_t capture_length;
static uint64_t control[NUMBERS];

static uint8_t choice(unsigned which) {
    return (uint8_t)(control[CHOICES] >> (56 - 8 * which));
}

/* mostly the right length, else one that is near it, another buffer's, or any */
static size_t some_length(unsigned which, size_t right) {
    static const size_t others[] = {0, 1, LR800_FLAGS, LR800_STORE, LR800_LANES, LR800_FRAME};
    uint8_t c = choice(which);
    if (c < 128) return right;
    if (c < 134) return others[c - 128];
    if (c < 140) return right + 1;
    if (c < 146) return right - 1;
    return (size_t)c * 40;
}

/* an empty capture is a null pointer, to which C lets nothing be added, not even 0 */
static const uint8_t *from_place(size_t place) {
    return place ? capture + place : capture;
}

static uint32_t four(const uint8_t *b) {
    return (uint32_t)b[0] << 24 | (uint32_t)b[1] << 16 | (uint32_t)b[2] << 8 | b[3];
}

/* ---- Sending and receiving ---- */

static uint8_t pilots[PILOTS];

static void learn_pilots(void) {
    static uint8_t lanes[LR800_LANES], store[LR800_STORE], frame[LR800_FRAME];
    MUST(lr800_send(lanes, sizeof lanes, store, sizeof store, frame, sizeof frame) == 0);
    for (int i = 0; i < PILOTS; i++) pilots[i] = frame[64 * i];
}

static uint32_t first_wrong(const size_t *lengths, const size_t *right, uint32_t count) {
    for (uint32_t i = 0; i < count; i++)
        if (lengths[i] != right[i]) return i + 1;
    return 0;
}

static void check_receive(const uint8_t *from, size_t from_length) {
    static fence input, store, output, flags;
    static uint8_t store_before[LONGEST], store_after[LR800_STORE], output_after[LR800_LANES], flags_after[LR800_FLAGS], input_before[LONGEST];
    static const size_t right[] = {LR800_FRAME, LR800_STORE, LR800_LANES, LR800_FLAGS};
    size_t n[4];
    uint32_t expected;
    for (unsigned i = 0; i < 4; i++) n[i] = some_length(INPUT_LENGTH + i, right[i]);
    uint8_t *in = lend_filled(&input, n[0], from, from_length);
    if (n[0]) memcpy(input_before, in, n[0]);
    expected = first_wrong(n, right, 4);
    if (expected == 0) {
        uint32_t wrong = 0;
        for (int i = 0; i < PILOTS; i++) wrong += in[64 * i] != pilots[i];
        mark(PILOTS_WRONG, wrong / 2);
        if (wrong >= NO_LOCK) expected = 5;
    }
    /* twice, over other bytes: what stands in output and flags must not matter */
    for (int again = 0; again < 2; again++) {
        uint8_t filler = again ? 0xC3 : 0x3C;
        size_t skip = choice(STORE_FROM) < 64 ? capture_length : choice(STORE_FROM) % (capture_length + 1);
        uint8_t *kept = lend_filled(&store, n[1], from_place(skip), capture_length - skip);
        uint8_t *out = lend(&output, n[2], filler), *marked = lend(&flags, n[3], filler);
        if (n[1]) memcpy(store_before, kept, n[1]);
        uint32_t answer = lr800_receive(in, n[0], kept, n[1], out, n[2], marked, n[3]);
        mark(RECEIVED, answer);
        MUST(answer == expected);
        MUST(same_bytes(in, input_before, n[0]));
        if (answer != 0) {
            MUST(same_bytes(kept, store_before, n[1]) && all_are(out, n[2], filler) && all_are(marked, n[3], filler));
        } else {
            uint64_t counts[4] = {0};
            for (int i = 0; i < LR800_FLAGS; i++) {
                MUST(marked[i] <= 3);
                counts[marked[i]]++;
            }
            for (int i = 1; i < 4; i++) mark(WORDS_ONE + (unsigned)i - 1, size_of_number(counts[i]));
            if (again) MUST(same_bytes(kept, store_after, n[1]) && same_bytes(out, output_after, n[2]) && same_bytes(marked, flags_after, n[3]));
            memcpy(store_after, kept, n[1]);
            memcpy(output_after, out, n[2]);
            memcpy(flags_after, marked, n[3]);
        }
        check_fence(&input);
        check_fence(&store);
        check_fence(&output);
        check_fence(&flags);
    }
}

/* What is sent locks, and each of its words is a code word: received from any store, nothing is mended. */
static void check_send(void) {
    static fence input, store, output;
    static uint8_t first[LR800_FRAME], first_store[LR800_STORE], lanes[LR800_LANES], flags[LR800_FLAGS];
    static const size_t right[] = {LR800_LANES, LR800_STORE, LR800_FRAME};
    size_t n[3];
    for (unsigned i = 0; i < 3; i++) n[i] = some_length(INPUT_LENGTH + i, right[i]);
    uint32_t expected = first_wrong(n, right, 3);
    for (int again = 0; again < 2; again++) {
        uint8_t filler = again ? 0xC3 : 0x3C;
        uint8_t *in = lend_filled(&input, n[0], capture, capture_length), *kept = lend(&store, n[1], 0x77), *out = lend(&output, n[2], filler);
        uint32_t answer = lr800_send(in, n[0], kept, n[1], out, n[2]);
        mark(SENT, answer);
        MUST(answer == expected);
        MUST(same_bytes(in, capture, n[0] < capture_length ? n[0] : capture_length));
        if (answer != 0) MUST(all_are(kept, n[1], 0x77) && all_are(out, n[2], filler));
        if (answer == 0 && again) MUST(same_bytes(out, first, n[2]) && same_bytes(kept, first_store, n[1]));
        if (answer == 0 && !again) {
            memcpy(first, out, n[2]);
            memcpy(first_store, kept, n[1]);
            MUST(lr800_receive(out, n[2], first_store, n[1], lanes, sizeof lanes, flags, sizeof flags) == 0);
            MUST(all_are(flags, sizeof flags, 0));
            memcpy(first_store, kept, n[1]);
        }
        check_fence(&input);
        check_fence(&store);
        check_fence(&output);
    }
}

/* ---- The account and the verdict, of any stored numbers ---- */

static int same_account(const lr800_account *a, const lr800_account *b) {
    return a->expected == b->expected && a->start == b->start && a->accepted == b->accepted && a->missing == b->missing && a->clean == b->clean
        && a->one == b->one && a->two == b->two && a->flagged == b->flagged;
}

static int above(uint64_t stored, uint64_t added, uint64_t limit) {
    return stored > limit || added > limit - stored;
}

static const uint64_t most_frames = 1000000, most_words = 384000000;

/* the flag place from which on words are tallied, of a frame that is so many numbers behind the start number */
static size_t tallied_from(uint32_t behind) {
    return behind == 0 ? LR800_FLAGS : behind == 1 ? LR800_FLAGS - 320 : 0;
}

/* an entry, beside what it must do */
static uint32_t enter(lr800_account *account, uint32_t number, const uint8_t *flags, size_t length) {
    lr800_account after = *account;
    uint32_t gap = number - account->expected, behind = number - account->start, expected = 0;
    uint64_t counts[4] = {0}, due = LR800_FLAGS - tallied_from(behind);
    for (size_t i = tallied_from(behind); i < length; i++)
        if (flags[i] < 4) counts[flags[i]]++;
    if (length != LR800_FLAGS) expected = 4;
    else if (gap >= (uint32_t)1 << 31) expected = 10;
    else if (above(after.accepted, 1, most_frames) || above(after.missing, gap, most_frames) || above(after.clean, counts[0], most_words)
             || above(after.one, counts[1], most_words) || above(after.two, counts[2], most_words)
             || above(after.flagged, counts[3], most_words)) expected = 11;
    else if (counts[0] + counts[1] + counts[2] + counts[3] != due) expected = 12;
    if (expected == 0) {
        after.expected = number + 1;
        after.accepted++, after.missing += gap;
        after.clean += counts[0], after.one += counts[1], after.two += counts[2], after.flagged += counts[3];
    }
    uint32_t answer = lr800_account_enter(account, number, flags, length);
    mark(ENTERED, 3 * answer + (behind < 2 ? behind : 2));
    MUST(answer == expected && same_account(account, &after));
    return answer;
}

/* a loss, beside what it must do */
static uint32_t lose(lr800_account *account, uint32_t number) {
    lr800_account after = *account;
    uint32_t gap = number - account->expected, expected = 0;
    if (gap >= (uint32_t)1 << 31) expected = 10;
    else if (above(after.accepted, 0, most_frames) || above(after.missing, (uint64_t)gap + 1, most_frames) || above(after.clean, 0, most_words)
             || above(after.one, 0, most_words) || above(after.two, 0, most_words) || above(after.flagged, 0, most_words)) expected = 11;
    if (expected == 0) after.expected = number + 1, after.missing += (uint64_t)gap + 1;
    uint32_t answer = lr800_account_lose(account, number);
    mark(LOST, answer);
    MUST(answer == expected && same_account(account, &after));
    return answer;
}

static void check_account(const lr800_account *before) {
    static fence flags;
    static const size_t edges[] = {0, 63, 64, LR800_FLAGS - 1}; /* the first and the last place of words 0 and 1, and of those behind them */
    size_t length = some_length(FLAGS_LENGTH, LR800_FLAGS);
    uint32_t got = (uint32_t)control[GOT];
    /* the stored start number, and those by which the frame is the first, the next, the one behind it and the one before them all */
    uint32_t starts[] = {before->start, got, got - 1, got - 2, got + 1};
    lr800_account account, from = *before;
    for (unsigned i = 0; i < sizeof starts / sizeof starts[0]; i++) {
        uint8_t *marked = lend_filled(&flags, length, capture, capture_length), raw = choice(RAW_FLAGS);
        from.start = starts[i];
        /* mostly flags as they are received; else any bytes for the words that are not tallied, or for all */
        for (size_t k = 0; k < length; k++)
            if (raw < 180 || (raw < 220 && k >= tallied_from(got - from.start))) marked[k] &= 3;
        account = from;
        enter(&account, got, marked, length);
        for (unsigned e = 0; e < sizeof edges / sizeof edges[0] && length == LR800_FLAGS; e++) { /* one byte above 3 */
            uint8_t was = marked[edges[e]];
            marked[edges[e]] |= 4;
            account = from;
            enter(&account, got, marked, length);
            marked[edges[e]] = was;
        }
        check_fence(&flags);
        account = from;
        lose(&account, got);
    }
    lr800_account_open(&account, got);
    MUST(account.expected == got && account.start == got);
    MUST(!account.accepted && !account.missing && !account.clean && !account.one && !account.two && !account.flagged);
}

static uint32_t verdict_on(const lr800_run *run, uint32_t stopped) {
    const lr800_account *a = &run->account;
    uint32_t verdict = lr800_verdict(run->asked, run->allowed, a->accepted, a->missing, a->clean, a->one, a->two, a->flagged, stopped);
    mark(JUDGED, verdict);
    MUST(lr800_account_verdict(a, run->asked, run->allowed, stopped) == verdict);
    int measured = !stopped && run->asked >= 2 && a->accepted == run->asked && !a->missing;
    /* none of them wraps: there are two frames or more, and each tally is at most the total */
    uint64_t total = measured ? 384 * a->accepted - FILL : 0;
    measured = measured && a->clean <= total && a->one <= total && a->two <= total && a->flagged <= total
        && a->clean + a->one + a->two + a->flagged == total;
    MUST(verdict == (uint32_t)(!measured ? LR800_NOT_MEASURED : a->flagged <= run->allowed ? LR800_PASS : LR800_FAIL));
    return verdict;
}

static void check_report(lr800_run run) {
    static fence text;
    static const char *const names[] = {"NOT MEASURED", "PASS", "FAIL"};
    char expected[LR800_REPORT + 1];
    uint32_t verdict = lr800_run_verdict(run);
    MUST(verdict == verdict_on(&run, run.phase != LR800_GOING));
    const lr800_account *a = &run.account;
    int length = snprintf(expected, sizeof expected,
                          "asked %" PRIu32 "\naccepted %" PRIu64 "\nmissing %" PRIu64 "\nclean %" PRIu64 "\none %" PRIu64 "\ntwo %" PRIu64 "\nflagged %" PRIu64
                          "\nverdict %s\n", run.asked, a->accepted, a->missing, a->clean, a->one, a->two, a->flagged, names[verdict]);
    MUST(length > 0 && length <= LR800_REPORT);
    size_t n = (size_t)length, rooms[] = {n, n - 1, n + 1, 0, LR800_REPORT, (size_t)(control[ROOM] % 512)};
    for (unsigned i = 0; i < sizeof rooms / sizeof rooms[0]; i++) {
        uint8_t *to = lend(&text, rooms[i], 0x3C);
        size_t answer = lr800_run_report(run, to, rooms[i]);
        mark(REPORTED, answer == 0);
        MUST(answer == (rooms[i] < n ? 0 : n));
        MUST(same_bytes(to, (const uint8_t *)expected, answer) && (rooms[i] == 0 || all_are(to + answer, rooms[i] - answer, 0x3C)));
        check_fence(&text);
    }
}

/* ---- The reader ---- */

static void check_record(lr800_record r, size_t place) {
    const uint8_t *at = from_place(place < capture_length ? place : 0);
    size_t left = place < capture_length ? capture_length - place : 0;
    mark(READ_AS, r.refusal ? r.refusal : r.kind);
    MUST(r.refusal == 0 || (r.refusal >= 6 && r.refusal <= 9));
    MUST(r.kind <= LR800_RECORD_FRAME);
    if (r.kind == LR800_RECORD_NONE) {
        MUST((r.refusal == 0) == (left == 0));
        MUST(r.next == place && !r.number && !r.asked && !r.allowed && !r.symbols);
        if (r.refusal == 6)
            MUST(left < 4 || (four(at) == LR800_ORDER_BYTES - 4 && left < LR800_ORDER_BYTES)
                 || (four(at) == LR800_FRAME_BYTES - 4 && left < LR800_FRAME_BYTES));
        if (r.refusal == 7) MUST(left >= 4 && four(at) != LR800_ORDER_BYTES - 4 && four(at) != LR800_FRAME_BYTES - 4);
        if (r.refusal == 8) MUST(at[4] != 1);
        if (r.refusal == 9) MUST(at[4] == 1 && at[5] != (four(at) == LR800_FRAME_BYTES - 4));
    } else {
        size_t bytes = r.kind == LR800_RECORD_ORDER ? LR800_ORDER_BYTES : LR800_FRAME_BYTES;
        MUST(r.refusal == 0 && bytes <= left && r.next == place + bytes);
        MUST(four(at) == bytes - 4 && at[4] == 1 && at[5] == (r.kind == LR800_RECORD_FRAME) && r.number == four(at + 6));
        if (r.kind == LR800_RECORD_ORDER) MUST(r.asked == four(at + 10) && r.allowed == four(at + 14) && r.symbols == 0);
        else MUST(r.asked == 0 && r.allowed == 0 && r.symbols == place + 10 && r.symbols + LR800_FRAME == r.next);
    }
}

static lr800_record read_at(size_t place) {
    lr800_record r = lr800_read(capture, capture_length, place), again = lr800_read(capture, capture_length, place);
    MUST(r.refusal == again.refusal && r.kind == again.kind && r.number == again.number && r.asked == again.asked && r.allowed == again.allowed
         && r.symbols == again.symbols && r.next == again.next);
    check_record(r, place);
    return r;
}

/* ---- A whole run ---- */

/* any phase above stopped is taken for it, and is stopped after a step */
static int same_phase(uint32_t a, uint32_t b) {
    return a == b || (a >= LR800_STOPPED && b >= LR800_STOPPED);
}

static int same_run(const lr800_run *a, const lr800_run *b) {
    return same_phase(a->phase, b->phase) && a->asked == b->asked && a->allowed == b->allowed && same_account(&a->account, &b->account);
}

/* whether a step must stop a run, by which number, and the account that it must leave: by the calls that tell a record's refusal and that make its entry */
static int stops(const lr800_run *run, const uint8_t *piece, size_t length, uint32_t *number, lr800_account *account) {
    static uint8_t kept[LR800_STORE], lanes[LR800_LANES], flags[LR800_FLAGS];
    *account = run->account;
    *number = 0;
    if (run->phase >= LR800_STOPPED) return 0;
    lr800_record r = lr800_read(piece, length, 0);
    *number = r.refusal ? r.refusal : r.next < length ? LR800_MORE_THAN_ONE : 0;
    if (*number || r.kind == LR800_RECORD_NONE) return *number != 0;
    if (run->phase == LR800_UNORDERED && r.kind == LR800_RECORD_ORDER) {
        lr800_account_open(account, r.number);
        return 0;
    }
    if (run->phase == LR800_UNORDERED || r.kind == LR800_RECORD_ORDER) return 1;
    /* from whatever stands in the store: neither lock nor flags depend on it */
    uint32_t answer = lr800_receive(piece + r.symbols, LR800_FRAME, kept, sizeof kept, lanes, sizeof lanes, flags, sizeof flags);
    MUST(answer == 0 || answer == 5);
    *number = answer ? lose(account, r.number) : enter(account, r.number, flags, sizeof flags);
    return *number != 0;
}

/* a step, twice from the same beginning. Answers what the step did */
static uint32_t step(lr800_run *run, const uint8_t *piece, size_t length) {
    lr800_run before = *run, first = *run;
    lr800_account account;
    uint32_t number;
    int stopped_now = stops(run, piece, length, &number, &account);
    MUST(number == 0 || (((number >= 6 && number <= 11) || number == LR800_MORE_THAN_ONE) && stopped_now));
    for (int again = 0; again < 2; again++) {
        lr800_run after = before;
        MUST(lr800_run_step(&after, piece, length) == number);
        MUST(after.phase <= LR800_STOPPED);
        if (again) MUST(same_run(&after, &first));
        first = after;
    }
    mark(STEPPED, number == LR800_MORE_THAN_ONE ? 60 : 3 * number + first.phase);
    MUST((before.phase < LR800_STOPPED && first.phase == LR800_STOPPED) == stopped_now);
    MUST(same_account(&first.account, &account));
    if (length == 0 || before.phase >= LR800_STOPPED) MUST(same_run(&before, &first));
    if (before.phase < LR800_STOPPED && first.phase >= LR800_STOPPED) {
        lr800_run stopped = before;
        lr800_run_stop(&stopped);
        MUST(same_run(&stopped, &first)); /* and nothing else changes */
    }
    *run = first;
    return number;
}

static void check_kept(const lr800_run *run) {
    const lr800_account *a = &run->account;
    uint64_t fill = 384 * a->accepted - (a->clean + a->one + a->two + a->flagged); /* words of accepted frames that were not tallied */
    MUST(run->phase <= LR800_STOPPED && a->accepted <= most_frames && a->missing <= most_frames);
    MUST(a->expected - a->start == (uint32_t)(a->accepted + a->missing));
    if (a->missing == 0) MUST(fill == (a->accepted == 0 ? 0 : a->accepted == 1 ? LR800_FLAGS : FILL));
    else MUST(fill == 0 || fill == FILL - LR800_FLAGS || fill == LR800_FLAGS || fill == FILL); /* either of the first two frames may be the missing one */
    if (run->phase == LR800_UNORDERED) MUST(!run->asked && !run->allowed && !a->expected && !a->start && !a->accepted && !a->missing);
}

/* Three ways to run the capture, beside the one call that examines it. Each answers the number by which the run was stopped, or 0. */

/* the host cuts the input into records by what is wanted */
static uint32_t run_by_wanted(lr800_run *run) {
    static fence piece;
    size_t place = 0;
    uint64_t steps = 0;
    uint32_t number = 0;
    while (run->phase < LR800_STOPPED) {
        size_t have = 0, wanted;
        while ((wanted = lr800_wanted(have ? from_place(place) : NULL, have)) > have) {
            MUST(wanted == 4 || (have >= 4 && (wanted == LR800_ORDER_BYTES || wanted == LR800_FRAME_BYTES) && wanted == (size_t)four(from_place(place)) + 4));
            if (wanted > capture_length - place) wanted = capture_length - place;
            if (wanted == have) break;
            have = wanted;
        }
        if (have == 0) break;
        MUST(number == 0);
        number = step(run, lend_filled(&piece, have, from_place(place), have), have);
        check_fence(&piece);
        check_kept(run);
        place += have;
        steps++;
    }
    mark(STEPS, steps * 3 + run->phase);
    MUST(step(run, NULL, 0) == 0);
    return number;
}

/* the host goes by the reader's places, and gives all that is left where a record is refused. More than a record stops a run */
static uint32_t run_by_places(lr800_run *run) {
    uint32_t number;
    for (size_t place = 0;;) {
        lr800_record r = read_at(place);
        size_t left = capture_length - place;
        if (run->phase < LR800_STOPPED && r.kind != LR800_RECORD_NONE && r.next - place < left) {
            lr800_run more = *run;
            MUST(step(&more, from_place(place), left) == LR800_MORE_THAN_ONE);
            more = *run;
            MUST(step(&more, from_place(place), r.next - place + 1) == LR800_MORE_THAN_ONE);
        }
        number = step(run, from_place(place), r.refusal ? left : r.next - place);
        MUST(r.refusal == 0 || number == r.refusal);
        MUST(number == 0 || run->phase == LR800_STOPPED);
        if (run->phase >= LR800_STOPPED || r.kind == LR800_RECORD_NONE) break;
        MUST(r.next > place);
        place = r.next;
    }
    if (run->phase >= LR800_STOPPED) MUST(step(run, capture, capture_length) == 0); /* told once */
    return number;
}

/* the host keeps every rule by itself */
static uint32_t run_by_hand(lr800_run *run) {
    static uint8_t store[LR800_STORE], lanes[LR800_LANES], flags[LR800_FLAGS];
    size_t place = 0;
    uint32_t number = 0;
    while (run->phase != LR800_STOPPED) {
        lr800_record r = read_at(place);
        if (r.kind == LR800_RECORD_NONE && r.refusal == 0) break;
        place = r.next;
        if (r.kind == LR800_RECORD_ORDER && run->phase == LR800_UNORDERED) {
            run->phase = LR800_GOING, run->asked = r.asked, run->allowed = r.allowed;
            lr800_account_open(&run->account, r.number);
            memset(store, 0, LR800_STORE);
        } else if (r.kind == LR800_RECORD_FRAME && run->phase == LR800_GOING) {
            uint32_t answer = lr800_receive(from_place(r.symbols), LR800_FRAME, store, sizeof store, lanes, sizeof lanes, flags, sizeof flags);
            MUST(answer == 0 || answer == 5);
            number = answer ? lr800_account_lose(&run->account, r.number) : lr800_account_enter(&run->account, r.number, flags, sizeof flags);
            if (number != 0) run->phase = LR800_STOPPED;
        } else run->phase = LR800_STOPPED, number = r.refusal;
    }
    return number;
}

/* the report and the verdict of the capture in one call, into any room, beside those of its run */
static void check_examine(const lr800_run *run) {
    static fence text;
    uint8_t expected[LR800_REPORT];
    size_t n = lr800_run_report(*run, expected, sizeof expected);
    size_t rooms[] = {n, n - 1, n + 1, 0, LR800_REPORT, (size_t)(control[ROOM] % 512)};
    MUST(n > 0);
    for (unsigned i = 0; i < sizeof rooms / sizeof rooms[0]; i++) {
        uint8_t *to = lend(&text, rooms[i], 0x3C);
        size_t answer = lr800_examine(capture, capture_length, to, rooms[i]);
        MUST(answer == (rooms[i] < n ? 0 : n));
        MUST(same_bytes(to, expected, answer) && (rooms[i] == 0 || all_are(to + answer, rooms[i] - answer, 0x3C)));
        check_fence(&text);
    }
    uint32_t verdict = lr800_examine_verdict(capture, capture_length);
    mark(EXAMINED, verdict);
    MUST(verdict == lr800_run_verdict(*run));
}

static void check_runs(void) {
    static uint32_t (*const ways[])(lr800_run *) = {run_by_wanted, run_by_places, run_by_hand};
    lr800_run runs[3];
    uint32_t numbers[3];
    for (int way = 0; way < 3; way++) {
        memset(&runs[way], 0xFF, sizeof runs[way]);
        lr800_run_open(&runs[way]);
        MUST(runs[way].phase == LR800_UNORDERED);
        check_kept(&runs[way]);
        numbers[way] = ways[way](&runs[way]);
        if (way > 0) MUST(numbers[way] == numbers[0] && same_run(&runs[way], &runs[0]));
    }
    check_report(runs[0]);
    check_examine(&runs[0]);
    lr800_run_stop(&runs[0]);
    MUST(runs[0].phase == LR800_STOPPED && same_account(&runs[0].account, &runs[1].account));
    MUST(runs[0].asked == runs[1].asked && runs[0].allowed == runs[1].allowed);
    check_report(runs[0]);
}

/* ---- Test traffic ---- */

enum { TRAFFIC_BITS = 42240, STATE_MASK = 0x7FFFFFFF, LANE_BYTES = LR800_LANES / LR800_COUNTS, LATE_BYTES = 15 };

static uint32_t stepped(uint32_t state) {
    return (state << 1 | ((state >> 27 ^ state >> 30) & 1)) & STATE_MASK;
}

/* Whether these are the lanes that are sent from a state on, by stepping. The state moves on. */
static int sent_from(uint32_t *state, const uint8_t *lanes) {
    for (size_t s = 0; s < TRAFFIC_BITS / 320; s++)
        for (size_t p = 0; p < LR800_COUNTS; p++)
            for (size_t n = 10 * s; n < 10 * s + 10; n++) {
                *state = stepped(*state);
                if ((lanes[LANE_BYTES * p + n / 8] >> (7 - n % 8) & 1) == (*state & 1)) return 0;
            }
    return 1;
}

/* The lanes from any state, and from where a frame begins, which are those of the frame by its number. The top bit of a state is not looked at. */
static void check_made(uint32_t any, uint32_t frame) {
    static fence output, directly;
    size_t n = some_length(OUTPUT_LENGTH, LR800_LANES);
    uint32_t expected = n == LR800_LANES ? 0 : 3, begins = lr800_traffic_state((uint64_t)TRAFFIC_BITS * frame);
    uint32_t froms[] = {any, any ^ ((uint32_t)1 << 31), begins};
    for (unsigned i = 0; i < sizeof froms / sizeof froms[0]; i++) {
        uint8_t filler = i % 2 ? 0xC3 : 0x3C, *out = lend(&output, n, filler);
        uint32_t state = froms[i], after = froms[i];
        MUST(lr800_traffic_next(&state, out, n) == expected);
        mark(MADE, expected);
        if (expected != 0) MUST(all_are(out, n, filler));
        else MUST(sent_from(&after, out));
        MUST(state == after);
        check_fence(&output);
        if (froms[i] != begins) continue;
        uint8_t *same = lend(&directly, n, (uint8_t)~filler);
        MUST(lr800_traffic_frame(frame, same, n) == expected);
        if (expected != 0) MUST(all_are(same, n, (uint8_t)~filler));
        else MUST(same_bytes(same, out, n) && state == lr800_traffic_state((uint64_t)TRAFFIC_BITS * frame + TRAFFIC_BITS));
        check_fence(&directly);
    }
}

/* Of what comes back of the two frames before, the input's bytes flipped: each flip is counted in its lane, but for those before the stream began. */
static void check_counts(uint32_t frame) {
    static fence input, counts;
    static uint8_t before[LR800_LANES], last[LR800_LANES], lent[LONGEST];
    size_t n = some_length(INPUT_LENGTH, LR800_LANES), count = some_length(COUNTS_LENGTH, LR800_COUNTS);
    size_t skipped = frame == 0 ? LANE_BYTES : frame == 1 ? LATE_BYTES : 0;
    uint32_t expected = n != LR800_LANES ? 1 : count != LR800_COUNTS ? 3 : 0, flips[LR800_COUNTS] = {0};
    uint8_t *lanes = lend_filled(&input, n, capture, capture_length);
    MUST(lr800_traffic_frame(frame - 1, last, sizeof last) == 0 && lr800_traffic_frame(frame - 2, before, sizeof before) == 0);
    for (size_t i = 0; i < n && expected == 0; i++) {
        size_t p = i / LANE_BYTES, j = i % LANE_BYTES;
        for (unsigned bit = 0; bit < 8; bit++) flips[p] += j >= skipped && (lanes[i] >> bit & 1);
        lanes[i] ^= j < LATE_BYTES ? before[i + LANE_BYTES - LATE_BYTES] : last[i - LATE_BYTES];
    }
    if (n) memcpy(lent, lanes, n);
    for (int again = 0; again < 2; again++) { /* over other counts: what stands there must not matter */
        uint8_t filler = again ? 0xC3 : 0x3C, *wrong = lend(&counts, count * sizeof(uint32_t), filler);
        MUST(lr800_traffic_check(frame, lanes, n, (uint32_t *)(void *)wrong, count) == expected);
        mark(CHECKED, expected);
        if (expected != 0) MUST(all_are(wrong, count * sizeof(uint32_t), filler));
        else MUST(memcmp(wrong, flips, sizeof flips) == 0);
        MUST(same_bytes(lanes, lent, n));
        check_fence(&input);
        check_fence(&counts);
    }
}

static void check_traffic(void) {
    uint64_t bits = control[BITS];
    uint32_t frame = (uint32_t)control[TRAFFIC], state = lr800_traffic_state(bits);
    MUST(lr800_traffic_state(0) == LR800_TRAFFIC_SEED && state != 0 && state <= STATE_MASK);
    if (bits != UINT64_MAX) MUST(lr800_traffic_state(bits + 1) == stepped(state));
    check_made((uint32_t)(control[TRAFFIC] >> 32), frame);
    check_counts(frame);
    for (uint32_t first = 0; first < 3; first++) check_counts(first);
}

/* ---- The hunt ---- */

/* whether a frame's symbols lock */
static int locks(const uint8_t *symbols) {
    uint32_t wrong = 0;
    for (size_t i = 0; i < PILOTS && wrong < NO_LOCK; i++) wrong += symbols[64 * i] != pilots[i];
    return wrong < NO_LOCK;
}

/* whether the kept symbols lock, the oldest first, where so many were taken in: at least a frame's. The oldest is counted from the frame's start, since
 * counted on from the youngest it may be beyond 2^64, which is no multiple of LR800_HUNT_KEPT */
static int kept_lock(const uint8_t *kept, uint64_t taken) {
    uint32_t wrong = 0;
    for (uint64_t i = 0; i < PILOTS && wrong < NO_LOCK; i++) wrong += kept[lr800_hunt_place(taken - LR800_FRAME + 64 * i)] != pilots[i];
    return wrong < NO_LOCK;
}

static int same_found(lr800_found a, lr800_found b) {
    return a.refusal == b.refusal && a.found == b.found && a.offset == b.offset;
}

static int same_search(const lr800_hunt_state *a, const lr800_hunt_state *b) {
    return a->taken == b->taken && a->found == b->found;
}

/* what a search must say of so many symbols of the capture, if a start is there, or none */
static lr800_found due(size_t length, int is_there, size_t start) {
    lr800_found said = {length < LR800_FRAME ? LR800_SHORT_RUN : 0, is_there && length >= LR800_FRAME && length - LR800_FRAME >= start, 0};
    if (said.found) said.offset = start;
    return said;
}

/* the answer to any state */
static lr800_found ask(const lr800_hunt_state *state) {
    lr800_found said = lr800_hunt_answer(*state), expected = {state->taken < LR800_FRAME ? LR800_SHORT_RUN : 0, state->taken >= LR800_FRAME && state->found, 0};
    if (expected.found) expected.offset = state->taken - LR800_FRAME;
    MUST(same_found(said, expected));
    return said;
}

/* a piece, beside what it must do to any state and any kept symbols */
static uint32_t feed(lr800_hunt_state *state, fence *kept, const uint8_t *piece, size_t length) {
    static uint8_t after_kept[LONGEST];
    lr800_hunt_state after = *state;
    uint32_t expected = kept->length != LR800_HUNT_KEPT ? 2 : !after.found && length > UINT64_MAX - after.taken ? LR800_TOO_MANY_SYMBOLS : 0;
    if (kept->length) memcpy(after_kept, kept->lent, kept->length);
    for (size_t i = 0; i < length && expected == 0 && !after.found; i++) {
        after_kept[lr800_hunt_place(after.taken++)] = piece[i];
        after.found = after.taken >= LR800_FRAME && kept_lock(after_kept, after.taken);
    }
    uint32_t answer = lr800_hunt_feed(state, kept->length ? kept->lent : NULL, kept->length, length ? piece : NULL, length);
    mark(TAKEN_IN, 2 * answer + (after.found != 0));
    MUST(answer == expected && same_search(state, &after) && same_bytes(kept->lent, after_kept, kept->length));
    check_fence(kept);
    ask(state);
    return answer;
}

/* the capture as a run of symbols, all of it and its beginnings up to where the answer changes; answers what is said of all of it */
static lr800_found check_whole(void) {
    size_t start = 0;
    while (capture_length >= LR800_FRAME && start <= capture_length - LR800_FRAME && !locks(from_place(start))) start++;
    int is_there = capture_length >= LR800_FRAME && start <= capture_length - LR800_FRAME;
    size_t end = is_there ? start + LR800_FRAME : capture_length;
    size_t lengths[] = {0, LR800_FRAME - 1, LR800_FRAME, end - (end > 0), end, (size_t)(control[PIECES] % (capture_length + 1)), capture_length};
    lr800_found said = {0, 0, 0};
    for (unsigned i = 0; i < sizeof lengths / sizeof lengths[0]; i++) {
        if (lengths[i] > capture_length) continue;
        said = lr800_hunt(capture, lengths[i]);
        MUST(same_found(said, due(lengths[i], is_there, start)));
    }
    mark(HUNTED, said.refusal ? 2 : said.found);
    if (said.found) MUST(lr800_hunt(from_place(start), LR800_FRAME).found == 1); /* a frame's own symbols: whether it locks */
    return said;
}

/* the capture in pieces cut anywhere: the answer is that of the whole after each, and the frame found is kept. Twice, over other bytes: what stands in the kept
 * symbols before must not matter */
static void check_pieces(lr800_found said) {
    static fence kept, piece;
    for (int again = 0; again < 2; again++) {
        lr800_hunt_state state = {control[FED], control[FOUND]};
        uint64_t cuts = control[PIECES] ^ (uint64_t)again;
        lend(&kept, LR800_HUNT_KEPT, again ? pilots[0] : 0x3C);
        lr800_hunt_open(&state);
        MUST(state.taken == 0 && state.found == 0);
        for (size_t place = 0, length; place < capture_length; place += length) {
            cuts = cuts * 6364136223846793005u + 1442695040888963407u;
            length = cuts >> 61 ? (size_t)(cuts >> 33) % LR800_FRAME : (size_t)(cuts >> 33) % 3;
            if (length > capture_length - place) length = capture_length - place;
            MUST(feed(&state, &kept, lend_filled(&piece, length, from_place(place), length), length) == 0);
            check_fence(&piece);
            MUST(same_found(ask(&state), due(place + length, (int)said.found, (size_t)said.offset)));
        }
        MUST(same_found(ask(&state), said));
        MUST(state.taken == (said.found ? said.offset + LR800_FRAME : capture_length) && state.found == said.found);
        for (size_t j = 0; j < LR800_FRAME && said.found; j++) MUST(kept.lent[lr800_hunt_place(said.offset + j)] == capture[said.offset + j]);
    }
}

/* one piece to any stored state, and to such as are at its limits; the kept symbols are those that the capture has before the piece, or the capture's first */
static void check_any_search(void) {
    static fence kept, piece;
    size_t place = (size_t)(control[PLACE] % (capture_length + 1)), left = capture_length - place;
    size_t length = left < LR800_FRAME ? left : LR800_FRAME, room = some_length(STORE_LENGTH, LR800_HUNT_KEPT);
    uint64_t feds[] = {control[FED], place, UINT64_MAX - length, UINT64_MAX - length + 1, UINT64_MAX, UINT32_MAX, LR800_FRAME - 1, LR800_FRAME};
    uint64_t founds[] = {0, control[FOUND]};
    for (unsigned i = 0; i < 2 * sizeof feds / sizeof feds[0]; i++) {
        lr800_hunt_state state = {feds[i / 2], founds[i % 2]};
        lend_filled(&kept, room, capture, capture_length);
        for (size_t j = 0; j < LR800_HUNT_KEPT && j < place && j < state.taken && room == LR800_HUNT_KEPT && i % 4 < 2; j++)
            kept.lent[lr800_hunt_place(state.taken - 1 - j)] = capture[place - 1 - j];
        feed(&state, &kept, NULL, 0);
        feed(&state, &kept, lend_filled(&piece, length, from_place(place), length), length);
        check_fence(&piece);
        feed(&state, &kept, from_place(place), length < 3 ? length : 3);
    }
}

static void check_hunt(void) {
    check_pieces(check_whole());
    check_any_search();
}

int LLVMFuzzerTestOneInput(const uint8_t *data, size_t size) {
    static fence lent;
    static int begun;
    if (size < CONTROL || size > LONGEST) return 0;
    if (!begun) learn_pilots();
    begun = 1;
    for (int i = 0; i < NUMBERS; i++) control[i] = (uint64_t)four(data + 8 * i) << 32 | four(data + 8 * i + 4);
    at_the_end = choice(SIDE) & 1;
    capture_length = size - CONTROL;
    capture = lend_filled(&lent, capture_length, data + CONTROL, capture_length);

    lr800_record first = read_at(0);
    read_at((size_t)control[PLACE]);
    check_runs();
    check_send();
    /* symbols that lie in a record: of the first frame, by the reader's word; else whatever is there */
    if (first.kind == LR800_RECORD_ORDER) first = read_at(first.next);
    size_t from = first.kind == LR800_RECORD_FRAME ? first.symbols : 0;
    check_receive(from_place(from), capture_length - from);
    check_traffic();
    check_hunt();

    /* any stored numbers are lawful */
    lr800_run run = {(uint32_t)(control[STOPPED] >> 32), (uint32_t)(control[FIGURES] >> 32), (uint32_t)control[FIGURES],
                     {(uint32_t)control[ACCOUNT], (uint32_t)(control[ACCOUNT] >> 32), control[ACCOUNT + 1], control[ACCOUNT + 2], control[ACCOUNT + 3],
                      control[ACCOUNT + 4], control[ACCOUNT + 5], control[ACCOUNT + 6]}};
    check_account(&run.account);
    verdict_on(&run, (uint32_t)control[STOPPED]);
    check_report(run);
    lr800_run going = run;
    step(&run, capture, capture_length);
    check_report(run);
    /* and of a run that goes on, the first frame as far ahead of the expected number as the control says; at the start number, the first and the second behind
     * it, and as far ahead of it as the control says */
    for (uint32_t behind = 0; behind < 4 && first.kind == LR800_RECORD_FRAME; behind++) {
        lr800_run odd = going;
        odd.phase = LR800_GOING;
        odd.account.expected = first.number - ((uint32_t)control[GOT] - (uint32_t)control[ACCOUNT]);
        odd.account.start = first.number - (behind < 3 ? behind : (uint32_t)control[GOT] - going.account.start);
        step(&odd, from_place(first.symbols - 10), LR800_FRAME_BYTES);
    }

    MUST(same_bytes(capture, data + CONTROL, capture_length)); /* a lent capture is only read */
    check_fence(&lent);
    return 0;
}

#ifdef ALONE

int main(int count, char **names) {
    static uint8_t data[LONGEST];
    for (int i = 1; i < count; i++) {
        FILE *file = fopen(names[i], "rb");
        MUST(file);
        size_t size = fread(data, 1, sizeof data, file);
        MUST(!ferror(file) && fclose(file) == 0);
        MUST(size >= CONTROL);
        LLVMFuzzerTestOneInput(data, size);
    }
    printf("%d inputs hold\n", count - 1);
    return 0;
}

#else

/* ---- How an input is changed: bytes by libFuzzer, and records as records ---- */

size_t LLVMFuzzerMutate(uint8_t *data, size_t size, size_t limit);
size_t LLVMFuzzerCustomMutator(uint8_t *data, size_t size, size_t limit, unsigned seed);

static uint64_t state;

static uint32_t below(uint32_t bound) {
    state = state * 6364136223846793005u + 1442695040888963407u;
    return (uint32_t)(state >> 33) % bound;
}

static void put_four(uint8_t *to, uint32_t n) {
    for (int i = 0; i < 4; i++) to[i] = (uint8_t)(n >> (24 - 8 * i));
}

static void put_control(uint8_t *data, unsigned which, uint64_t n) {
    put_four(data + 8 * which, (uint32_t)(n >> 32));
    put_four(data + 8 * which + 4, (uint32_t)n);
}

/* numbers at which something changes */
static uint64_t telling(void) {
    static const uint64_t at[] = {0, 1, 2, 320, 384, 448, 704, 768, 6144, 1000000, 384000000, (uint64_t)1 << 31, (uint64_t)1 << 32, (uint64_t)1 << 63};
    return at[below(sizeof at / sizeof at[0])] + below(5) - 2;
}

/* a run that was measured, or would be if sums wrapped, or if other words were fill */
static void put_measured(uint8_t *data) {
    uint64_t asked = (uint32_t)(below(2) ? below(5) : telling()), rest = 384 * asked - (below(4) ? FILL : 64 * below(8));
    for (unsigned i = 3; i < 6; i++) {
        uint64_t n = below(2) ? below(385) : telling() << below(33);
        put_control(data, ACCOUNT + i, n);
        rest -= n;
    }
    put_control(data, ACCOUNT + 1, asked);
    put_control(data, ACCOUNT + 2, 0);
    put_control(data, ACCOUNT + 6, rest);
    put_control(data, FIGURES, asked << 32 | (uint32_t)(rest + below(3) - 1));
    put_control(data, STOPPED, (uint64_t)LR800_GOING << 32);
}

/* an account at its limits, and a frame next after the expected one, or where something changes; at the start number, behind it or anywhere */
static void put_full(uint8_t *data) {
    uint32_t expected = (uint32_t)telling(), got = expected + (uint32_t)(below(3) ? below(3) : telling());
    uint32_t start = got - (uint32_t)(below(4) ? below(4) : telling());
    for (unsigned i = 1; i < 7; i++) put_control(data, ACCOUNT + i, below(3) ? 0 : (i < 3 ? 1000000 : 384000000) - below(2) * below(400));
    put_control(data, ACCOUNT, (uint64_t)start << 32 | expected);
    put_control(data, GOT, got);
}

/* where the records of a capture begin, as far as their lengths go */
static size_t find_records(const uint8_t *bytes, size_t length, size_t *places, size_t most) {
    size_t count = 0, place = 0;
    while (count < most && length - place >= 4) {
        size_t record = (size_t)four(bytes + place) + 4;
        places[count++] = place;
        if (record > length - place) break;
        place += record;
    }
    return count;
}

size_t LLVMFuzzerCustomMutator(uint8_t *data, size_t size, size_t limit, unsigned seed) {
    enum { MOST = 16 };
    size_t places[MOST], count, place, end, length;
    uint8_t *bytes = data + CONTROL;
    state = seed;
    below(2);
    if (size < CONTROL || below(8) == 0) return LLVMFuzzerMutate(data, size, limit);
    length = size - CONTROL;
    switch (below(12)) { /* the control */
    case 0: data[below(8)] = (uint8_t)below(256); return size;
    case 1: put_control(data, 1 + below(NUMBERS - 1), telling()); return size;
    case 2: put_measured(data); return size;
    case 3: put_full(data); return size;
    default: break;
    }
    count = find_records(bytes, length, places, MOST);
    if (count == 0) return CONTROL + LLVMFuzzerMutate(bytes, length, limit - CONTROL);
    unsigned which = below((uint32_t)count);
    place = places[which];
    end = which + 1 < count ? places[which + 1] : length;
    switch (below(9)) {
    case 0: /* the record twice */
        if (size + (end - place) > limit) return size;
        memmove(bytes + end + (end - place), bytes + end, length - end);
        memcpy(bytes + end, bytes + place, end - place);
        return size + (end - place);
    case 1: /* the record left out */
        memmove(bytes + place, bytes + end, length - end);
        return size - (end - place);
    case 2: /* the end cut off */
        return CONTROL + place + below((uint32_t)(length - place + 1));
    case 3: /* its length, version or kind */
        if (end - place >= 6) bytes[place + below(6)] ^= (uint8_t)(1 << below(8));
        return size;
    case 4: /* its number: the one before it and one more, or any that tells */
        if (end - place >= 10) put_four(bytes + place + 6, which && below(2) ? four(bytes + places[which - 1] + 6) + below(3) : (uint32_t)telling());
        return size;
    case 5: /* an order's figures */
        if (places[0] + LR800_ORDER_BYTES <= length) put_four(bytes + 10 + 4 * below(2), (uint32_t)(below(2) ? count - 1 : telling()));
        return size;
    case 6: /* pilots */
        for (uint32_t n = below(30); n; n--)
            if (end - place == LR800_FRAME_BYTES) bytes[place + 10 + 64 * below(PILOTS)] ^= (uint8_t)(1 + below(255));
        return size;
    case 7: /* symbols: a few bits, or very many */
        for (uint32_t n = below(2) ? below(8) : below(3000); n; n--)
            if (end - place == LR800_FRAME_BYTES) bytes[place + 10 + below(LR800_FRAME)] ^= (uint8_t)(1 << below(8));
        return size;
    default: /* bytes behind it all */
        if (size + 8 > limit) return size;
        for (uint32_t n = below(8); n; n--) data[size++] = (uint8_t)below(256);
        return size;
    }
}

#endif
