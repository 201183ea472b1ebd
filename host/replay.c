/* Makes the calls that standard input tells and compares every answer and every byte with what it says they must be.
 * A record begins with a byte, the number of the archive's function in the order of adderbloom.h, lr800_send being 0. Its arguments follow in their order,
 * then the answer, then all that the call may write as it must be after it: accounts, runs, states and buffers in the order of the arguments. Numbers have
 * four or eight bytes, highest first, a size_t eight; accounts, runs, records, the state of a search and what it says are their fields in their order; a
 * buffer is its length, four bytes, and its bytes, but after the call only its bytes; a buffer of counts likewise, its length the number of counts, and each
 * count four bytes. What a call may only read does not stand behind it again, and must be as it was.
 * Guard bytes stand around every buffer, account, run and state; a buffer of bytes may begin at any address, one of counts at any that is aligned for them,
 * and one of none is lent as a null pointer. */
#include "adderbloom.h"
#include <stdio.h>
#include <stdlib.h>
#include <string.h>

/* none with -DGUARD=0: a buffer is then a block of its own and of its very length, for a checker of memory */
#ifndef GUARD
#define GUARD 64
#endif
enum { GUARD_BYTE = 0xA5 };

enum { SEND, RECEIVE, ACCOUNT_OPEN, ACCOUNT_ENTER, ACCOUNT_LOSE, VERDICT, READ, WANTED, RUN_OPEN, RUN_STEP, RUN_STOP, RUN_VERDICT, RUN_REPORT, EXAMINE,
       EXAMINE_VERDICT, TRAFFIC_STATE, TRAFFIC_FRAME, TRAFFIC_NEXT, TRAFFIC_CHECK, HUNT, HUNT_OPEN, HUNT_FEED, HUNT_ANSWER, FUNCTIONS,
       READ_KIND = FUNCTIONS, STEP_PHASE, WRONG_BITS, TALLIED, HUNT_FOUND, FEED_FOUND, FEED_AFTER, ANSWER_FOUND, TALLIES };

/* how often each number occurred that the header lists; of a run's reports, none, the shortest and the longest; of captures', none, the shortest and that of no
 * bytes; of states, that of no bits and that of one; of the wrong bits of a lane, none, one, and all that are compared, of the second frame and of a later
 * one; of the words that an accepted frame adds to the tallies, those of the start number, of the next and of every other; of what was searched and not
 * refused, whether a start was found, and of pieces fed, whether one was found with them or before */
enum { MOST_NUMBERS = 8 };
typedef struct {
    const char *name;
    size_t count;
    uint64_t numbers[MOST_NUMBERS];
    int open; /* others than these are lawful too */
    unsigned long seen[MOST_NUMBERS], others;
} tally;

static tally tallies[TALLIES] = {
    [SEND] = {.name = "lr800_send answered", .count = 4, .numbers = {0, 1, 2, 3}},
    [RECEIVE] = {.name = "lr800_receive answered", .count = 6, .numbers = {0, 1, 2, 3, 4, 5}},
    [ACCOUNT_OPEN] = {.name = "lr800_account_open opened", .count = 1, .numbers = {0}},
    [ACCOUNT_ENTER] = {.name = "lr800_account_enter answered", .count = 5, .numbers = {0, 4, 10, 11, 12}},
    [ACCOUNT_LOSE] = {.name = "lr800_account_lose answered", .count = 3, .numbers = {0, 10, 11}},
    [VERDICT] = {.name = "lr800_verdict answered", .count = 3, .numbers = {LR800_NOT_MEASURED, LR800_PASS, LR800_FAIL}},
    [READ] = {.name = "lr800_read refused by", .count = 5, .numbers = {0, 6, 7, 8, 9}},
    [READ_KIND] = {.name = "lr800_read found", .count = 3, .numbers = {LR800_RECORD_NONE, LR800_RECORD_ORDER, LR800_RECORD_FRAME}},
    [WANTED] = {.name = "lr800_wanted answered", .count = 3, .numbers = {4, LR800_ORDER_BYTES, LR800_FRAME_BYTES}},
    [RUN_OPEN] = {.name = "lr800_run_open opened", .count = 1, .numbers = {0}},
    [RUN_STEP] = {.name = "lr800_run_step answered", .count = 8, .numbers = {0, 6, 7, 8, 9, 10, 11, 22}},
    [STEP_PHASE] = {.name = "lr800_run_step left phase", .count = 3, .numbers = {LR800_UNORDERED, LR800_GOING, LR800_STOPPED}},
    [RUN_STOP] = {.name = "lr800_run_stop left phase", .count = 1, .numbers = {LR800_STOPPED}},
    [RUN_VERDICT] = {.name = "lr800_run_verdict answered", .count = 3, .numbers = {LR800_NOT_MEASURED, LR800_PASS, LR800_FAIL}},
    [RUN_REPORT] = {.name = "lr800_run_report answered", .count = 3, .numbers = {0, 74, 203}, .open = 1},
    [EXAMINE] = {.name = "lr800_examine answered", .count = 3, .numbers = {0, 74, 80}, .open = 1},
    [EXAMINE_VERDICT] = {.name = "lr800_examine_verdict answered", .count = 3, .numbers = {LR800_NOT_MEASURED, LR800_PASS, LR800_FAIL}},
    [TRAFFIC_STATE] = {.name = "lr800_traffic_state answered", .count = 2, .numbers = {0x7FFFFFFF, 0x7FFFFFFE}, .open = 1},
    [TRAFFIC_FRAME] = {.name = "lr800_traffic_frame answered", .count = 2, .numbers = {0, 3}},
    [TRAFFIC_NEXT] = {.name = "lr800_traffic_next answered", .count = 2, .numbers = {0, 3}},
    [TRAFFIC_CHECK] = {.name = "lr800_traffic_check answered", .count = 3, .numbers = {0, 1, 3}},
    [WRONG_BITS] = {.name = "lr800_traffic_check counted in a lane", .count = 4, .numbers = {0, 1, 1200, 1320}, .open = 1},
    [TALLIED] = {.name = "accepted frames added words", .count = 3, .numbers = {0, 320, 384}},
    [HUNT] = {.name = "lr800_hunt refused by", .count = 2, .numbers = {0, 13}},
    [HUNT_FOUND] = {.name = "lr800_hunt found", .count = 2, .numbers = {0, 1}},
    [HUNT_OPEN] = {.name = "lr800_hunt_open opened", .count = 1, .numbers = {0}},
    [HUNT_FEED] = {.name = "lr800_hunt_feed answered", .count = 3, .numbers = {0, 2, 23}},
    [FEED_FOUND] = {.name = "lr800_hunt_feed left found", .count = 2, .numbers = {0, 1}},
    [FEED_AFTER] = {.name = "lr800_hunt_feed behind a start left found", .count = 1, .numbers = {1}, .open = 1},
    [HUNT_ANSWER] = {.name = "lr800_hunt_answer refused by", .count = 2, .numbers = {0, 13}},
    [ANSWER_FOUND] = {.name = "lr800_hunt_answer found", .count = 2, .numbers = {0, 1}},
};

static unsigned long calls, in_runs;

static void stop(const char *function, const char *what) {
    fprintf(stderr, "replay: call %lu: %s %s\n", calls, function, what);
    exit(1);
}

/* ---- What standard input tells ---- */

static void take(void *to, size_t length) {
    if (fread(to, 1, length, stdin) != length) stop("the record", "is cut");
}

static uint32_t take32(void) {
    uint8_t b[4];
    take(b, sizeof b);
    return (uint32_t)b[0] << 24 | (uint32_t)b[1] << 16 | (uint32_t)b[2] << 8 | b[3];
}

static uint64_t take64(void) {
    uint64_t upper = take32();
    return upper << 32 | take32();
}

static size_t take_size(void) {
    uint64_t size = take64();
    if (size > SIZE_MAX) stop("a size", "does not fit");
    return (size_t)size;
}

static lr800_account take_account(void) {
    lr800_account a;
    a.expected = take32();
    a.start = take32();
    a.accepted = take64();
    a.missing = take64();
    a.clean = take64();
    a.one = take64();
    a.two = take64();
    a.flagged = take64();
    return a;
}

static lr800_run take_run(void) {
    lr800_run r;
    r.phase = take32();
    r.asked = take32();
    r.allowed = take32();
    r.account = take_account();
    return r;
}

static lr800_hunt_state take_hunt_state(void) {
    lr800_hunt_state s;
    s.taken = take64();
    s.found = take64();
    return s;
}

/* ---- What is lent ---- */

typedef struct {
    uint8_t *block, *bytes;
    size_t length;
} guarded;

static guarded guard(size_t length, size_t shift) {
    guarded g = {malloc(length + shift + 2 * GUARD), NULL, length};
    if (!g.block) stop("replay", "has no memory");
    memset(g.block, GUARD_BYTE, length + shift + 2 * GUARD);
    g.bytes = g.block + GUARD + shift;
    return g;
}

/* the guards stand as they were; gives the block back */
static void release(guarded g, const char *function) {
    for (const uint8_t *p = g.block; p < g.bytes; p++)
        if (*p != GUARD_BYTE) stop(function, "wrote before what was lent");
    for (size_t i = 0; i < GUARD; i++)
        if (g.bytes[g.length + i] != GUARD_BYTE) stop(function, "wrote behind what was lent");
    free(g.block);
}

/* a buffer as it is lent, and as it must be after the call */
typedef struct {
    guarded lent;
    uint8_t *right;
} buffer;

static buffer take_buffer(void) {
    buffer b = {guard(take32(), calls % 8), NULL};
    take(b.lent.bytes, b.lent.length);
    b.right = malloc(b.lent.length + 1);
    if (!b.right) stop("replay", "has no memory");
    memcpy(b.right, b.lent.bytes, b.lent.length);
    return b;
}

static void take_after(buffer b) {
    take(b.right, b.lent.length);
}

static uint8_t *lent(buffer b) {
    return b.lent.length ? b.lent.bytes : NULL;
}

static void compare(buffer b, const char *function, const char *what) {
    if (memcmp(b.lent.bytes, b.right, b.lent.length) != 0) stop(function, what);
    release(b.lent, function);
    free(b.right);
}

/* counts as they are lent, and as they must be after the call */
typedef struct {
    guarded lent;
    size_t length;
    uint32_t *right;
} counts;

static uint32_t *lent_counts(counts c) {
    return c.length ? (uint32_t *)(void *)c.lent.bytes : NULL;
}

static counts take_counts(void) {
    size_t length = take32(), size = length * sizeof(uint32_t);
    counts c = {guard(size, calls % 2 * sizeof(uint32_t)), length, malloc(size + 1)};
    if (!c.right) stop("replay", "has no memory");
    for (size_t i = 0; i < length; i++) c.right[i] = lent_counts(c)[i] = take32();
    return c;
}

static void take_counts_after(counts c) {
    for (size_t i = 0; i < c.length; i++) c.right[i] = take32();
}

static void compare_counts(counts c, const char *function) {
    for (size_t i = 0; i < c.length; i++)
        if (lent_counts(c)[i] != c.right[i]) {
            fprintf(stderr, "replay: %lu, not %lu, at %zu\n", (unsigned long)lent_counts(c)[i], (unsigned long)c.right[i], i);
            stop(function, "left other counts");
        }
    release(c.lent, function);
    free(c.right);
}

static void compare_accounts(const lr800_account *a, const lr800_account *b, const char *function) {
    if (a->expected != b->expected) stop(function, "left another expected number");
    if (a->start != b->start) stop(function, "left another start number");
    if (a->accepted != b->accepted) stop(function, "left other accepted frames");
    if (a->missing != b->missing) stop(function, "left other missing frames");
    if (a->clean != b->clean || a->one != b->one || a->two != b->two || a->flagged != b->flagged) stop(function, "left other tallies");
}

static void compare_runs(const lr800_run *a, const lr800_run *b, const char *function) {
    if (a->phase != b->phase) stop(function, "left another phase");
    if (a->asked != b->asked || a->allowed != b->allowed) stop(function, "left other figures");
    compare_accounts(&a->account, &b->account, function);
}

static void compare_hunt_states(const lr800_hunt_state *a, const lr800_hunt_state *b, const char *function) {
    if (a->taken != b->taken) {
        fprintf(stderr, "replay: %llu, not %llu\n", (unsigned long long)a->taken, (unsigned long long)b->taken);
        stop(function, "left another number of symbols taken in");
    }
    if (a->found != b->found) stop(function, "left another number of what was found");
}

/* ---- The calls ---- */

static void count(int which, uint64_t number) {
    tally *t = &tallies[which];
    for (size_t n = 0; n < t->count; n++)
        if (t->numbers[n] == number) {
            t->seen[n]++;
            return;
        }
    t->others++;
    if (!t->open) stop(t->name, "a number that is not in its list");
}

/* the words that a frame added, where it was accepted */
static void count_tallied(const lr800_account *before, const lr800_account *after) {
    if (after->accepted <= before->accepted) return;
    count(TALLIED, after->clean - before->clean + after->one - before->one + after->two - before->two + after->flagged - before->flagged);
}

/* the answer must be the one told, and is counted */
static void answered(int which, const char *function, uint64_t number, uint64_t right) {
    if (number != right) {
        fprintf(stderr, "replay: %llu, not %llu\n", (unsigned long long)number, (unsigned long long)right);
        stop(function, "answered another number");
    }
    count(which, number);
}

static void replay_frame(int function) {
    const char *name = function == SEND ? "lr800_send" : "lr800_receive";
    buffer input = take_buffer(), store = take_buffer(), output = take_buffer(), flags = {{NULL, NULL, 0}, NULL};
    if (function == RECEIVE) flags = take_buffer();
    uint32_t right = take32(), number;
    take_after(store);
    take_after(output);
    if (function == RECEIVE) take_after(flags);
    number = function == SEND
        ? lr800_send(lent(input), input.lent.length, lent(store), store.lent.length, lent(output), output.lent.length)
        : lr800_receive(lent(input), input.lent.length, lent(store), store.lent.length, lent(output), output.lent.length, lent(flags), flags.lent.length);
    answered(function, name, number, right);
    compare(input, name, "wrote its input");
    compare(store, name, "left another store");
    compare(output, name, "left another output");
    if (function == RECEIVE) compare(flags, name, "left other flags");
}

static void replay_account(int function) {
    static const char *const names[] = {"lr800_account_open", "lr800_account_enter", "lr800_account_lose"};
    const char *name = names[function - ACCOUNT_OPEN];
    guarded block = guard(sizeof(lr800_account), 0);
    lr800_account *account = (lr800_account *)(void *)block.bytes, before = take_account(), after;
    *account = before;
    uint32_t number = take32();
    if (function == ACCOUNT_OPEN) {
        lr800_account_open(account, number);
        count(function, 0);
    } else if (function == ACCOUNT_ENTER) {
        buffer flags = take_buffer();
        uint32_t right = take32();
        answered(function, name, lr800_account_enter(account, number, lent(flags), flags.lent.length), right);
        compare(flags, name, "wrote the flags");
    } else {
        uint32_t right = take32();
        answered(function, name, lr800_account_lose(account, number), right);
    }
    after = take_account();
    if (function == ACCOUNT_ENTER) count_tallied(&before, &after);
    compare_accounts(account, &after, name);
    release(block, name);
}

static void replay_verdict(void) {
    uint32_t asked = take32(), allowed = take32();
    uint64_t accepted = take64(), missing = take64(), clean = take64(), one = take64(), two = take64(), flagged = take64();
    uint32_t stopped = take32(), right = take32();
    answered(VERDICT, "lr800_verdict", lr800_verdict(asked, allowed, accepted, missing, clean, one, two, flagged, stopped), right);
}

static void replay_read(void) {
    const char *name = "lr800_read";
    buffer capture = take_buffer();
    size_t place = take_size();
    lr800_record r = lr800_read(lent(capture), capture.lent.length, place);
    answered(READ, name, r.refusal, take32());
    uint32_t kind = take32();
    if (r.kind != kind) stop(name, "gave another kind");
    if (r.refusal == 0) count(READ_KIND, kind);
    if (r.number != take32()) stop(name, "gave another number of a frame");
    if (r.asked != take32()) stop(name, "gave other frames asked");
    if (r.allowed != take32()) stop(name, "gave other words allowed");
    if (r.symbols != take_size()) stop(name, "gave another place of symbols");
    if (r.next != take_size()) stop(name, "gave another next place");
    compare(capture, name, "wrote the capture");
}

static void replay_wanted(void) {
    buffer piece = take_buffer();
    size_t right = take_size();
    answered(WANTED, "lr800_wanted", lr800_wanted(lent(piece), piece.lent.length), right);
    compare(piece, "lr800_wanted", "wrote the piece");
}

static void replay_run(int function) {
    const char *name = function == RUN_OPEN ? "lr800_run_open" : function == RUN_STEP ? "lr800_run_step" : "lr800_run_stop";
    guarded block = guard(sizeof(lr800_run), 0);
    lr800_run *run = (lr800_run *)(void *)block.bytes, before = take_run(), after;
    *run = before;
    if (function == RUN_STEP) {
        buffer piece = take_buffer();
        uint32_t right = take32();
        after = take_run();
        answered(function, name, lr800_run_step(run, lent(piece), piece.lent.length), right);
        count(STEP_PHASE, after.phase);
        in_runs += after.account.accepted > before.account.accepted;
        count_tallied(&before.account, &after.account);
        compare(piece, name, "wrote the piece");
    } else {
        after = take_run();
        if (function == RUN_OPEN)
            lr800_run_open(run);
        else
            lr800_run_stop(run);
        count(function, after.phase);
    }
    compare_runs(run, &after, name);
    release(block, name);
}

static void replay_run_verdict(void) {
    lr800_run run = take_run();
    uint32_t right = take32();
    answered(RUN_VERDICT, "lr800_run_verdict", lr800_run_verdict(run), right);
}

static void replay_run_report(void) {
    lr800_run run = take_run();
    buffer text = take_buffer();
    size_t right = take_size();
    take_after(text);
    answered(RUN_REPORT, "lr800_run_report", lr800_run_report(run, lent(text), text.lent.length), right);
    compare(text, "lr800_run_report", "left another text");
}

static void replay_examine(void) {
    const char *name = "lr800_examine";
    buffer capture = take_buffer(), text = take_buffer();
    size_t right = take_size();
    take_after(text);
    answered(EXAMINE, name, lr800_examine(lent(capture), capture.lent.length, lent(text), text.lent.length), right);
    compare(capture, name, "wrote the capture");
    compare(text, name, "left another text");
}

static void replay_examine_verdict(void) {
    const char *name = "lr800_examine_verdict";
    buffer capture = take_buffer();
    uint32_t right = take32();
    answered(EXAMINE_VERDICT, name, lr800_examine_verdict(lent(capture), capture.lent.length), right);
    compare(capture, name, "wrote the capture");
}

static void replay_traffic_state(void) {
    uint64_t bits = take64();
    uint32_t right = take32();
    answered(TRAFFIC_STATE, "lr800_traffic_state", lr800_traffic_state(bits), right);
}

static void replay_traffic_frame(void) {
    const char *name = "lr800_traffic_frame";
    uint32_t frame = take32();
    buffer output = take_buffer();
    uint32_t right = take32();
    take_after(output);
    answered(TRAFFIC_FRAME, name, lr800_traffic_frame(frame, lent(output), output.lent.length), right);
    compare(output, name, "left another output");
}

static void replay_traffic_next(void) {
    const char *name = "lr800_traffic_next";
    guarded block = guard(sizeof(uint32_t), 0);
    uint32_t *state = (uint32_t *)(void *)block.bytes;
    *state = take32();
    buffer output = take_buffer();
    uint32_t right = take32(), after = take32();
    take_after(output);
    answered(TRAFFIC_NEXT, name, lr800_traffic_next(state, lent(output), output.lent.length), right);
    if (*state != after) stop(name, "left another state");
    compare(output, name, "left another output");
    release(block, name);
}

static void replay_traffic_check(void) {
    const char *name = "lr800_traffic_check";
    uint32_t frame = take32();
    buffer lanes = take_buffer();
    counts wrong = take_counts();
    uint32_t right = take32();
    take_counts_after(wrong);
    answered(TRAFFIC_CHECK, name, lr800_traffic_check(frame, lent(lanes), lanes.lent.length, lent_counts(wrong), wrong.length), right);
    for (size_t p = 0; right == 0 && p < wrong.length; p++) count(WRONG_BITS, wrong.right[p]);
    compare(lanes, name, "wrote the lanes");
    compare_counts(wrong, name);
}

/* what a search says, field by field, and counted */
static void searched(int refused, int found, const char *name, lr800_found said) {
    answered(refused, name, said.refusal, take32());
    if (said.found != take32()) stop(name, "found a start where none is, or none where one is");
    if (said.refusal == 0) count(found, said.found);
    uint64_t offset = take64();
    if (said.offset != offset) {
        fprintf(stderr, "replay: %llu, not %llu\n", (unsigned long long)said.offset, (unsigned long long)offset);
        stop(name, "found another offset");
    }
}

static void replay_hunt(void) {
    const char *name = "lr800_hunt";
    buffer run = take_buffer();
    searched(HUNT, HUNT_FOUND, name, lr800_hunt(lent(run), run.lent.length));
    compare(run, name, "wrote the run");
}

/* all that are lent a search's state; the one that only asks must leave it as it was */
static void replay_hunt_state(int function) {
    const char *name = function == HUNT_OPEN ? "lr800_hunt_open" : function == HUNT_FEED ? "lr800_hunt_feed" : "lr800_hunt_answer";
    guarded block = guard(sizeof(lr800_hunt_state), 0);
    lr800_hunt_state *state = (lr800_hunt_state *)(void *)block.bytes, before = take_hunt_state(), after = before;
    *state = before;
    if (function == HUNT_OPEN) {
        lr800_hunt_open(state);
        after = take_hunt_state();
        count(function, 0);
    } else if (function == HUNT_FEED) {
        buffer kept = take_buffer(), piece = take_buffer();
        uint32_t right = take32();
        after = take_hunt_state();
        take_after(kept);
        answered(function, name, lr800_hunt_feed(state, lent(kept), kept.lent.length, lent(piece), piece.lent.length), right);
        if (right == 0) count(before.found ? FEED_AFTER : FEED_FOUND, after.found);
        compare(kept, name, "left other kept symbols");
        compare(piece, name, "wrote the piece");
    } else {
        searched(function, ANSWER_FOUND, name, lr800_hunt_answer(*state));
    }
    compare_hunt_states(state, &after, name);
    release(block, name);
}

/* a replay that did not meet every number has shown nothing of those that it left out */
static void tell(const tally *t) {
    printf("%s", t->name);
    for (size_t n = 0; n < t->count; n++) printf("%s %llu %lu times", n ? "," : "", (unsigned long long)t->numbers[n], t->seen[n]);
    if (t->others) printf(", others %lu times", t->others);
    printf("\n");
    for (size_t n = 0; n < t->count; n++)
        if (!t->seen[n]) stop(t->name, "not every number of its list");
}

int main(void) {
    int function;
    while ((function = getchar()) != EOF) {
        switch (function) {
        case SEND:
        case RECEIVE: replay_frame(function); break;
        case ACCOUNT_OPEN:
        case ACCOUNT_ENTER:
        case ACCOUNT_LOSE: replay_account(function); break;
        case VERDICT: replay_verdict(); break;
        case READ: replay_read(); break;
        case WANTED: replay_wanted(); break;
        case RUN_OPEN:
        case RUN_STEP:
        case RUN_STOP: replay_run(function); break;
        case RUN_VERDICT: replay_run_verdict(); break;
        case RUN_REPORT: replay_run_report(); break;
        case EXAMINE: replay_examine(); break;
        case EXAMINE_VERDICT: replay_examine_verdict(); break;
        case TRAFFIC_STATE: replay_traffic_state(); break;
        case TRAFFIC_FRAME: replay_traffic_frame(); break;
        case TRAFFIC_NEXT: replay_traffic_next(); break;
        case TRAFFIC_CHECK: replay_traffic_check(); break;
        case HUNT: replay_hunt(); break;
        case HUNT_OPEN:
        case HUNT_FEED:
        case HUNT_ANSWER: replay_hunt_state(function); break;
        default: stop("the record", "is of no function");
        }
        calls++;
    }
    if (ferror(stdin)) stop("standard input", "cannot be read");
    printf("%lu calls agree: %lu frames sent, %lu received, %lu more received by runs\n", calls, tallies[SEND].seen[0], tallies[RECEIVE].seen[0], in_runs);
    for (int t = 0; t < TALLIES; t++) tell(&tallies[t]);
    return 0;
}
