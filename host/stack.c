/* How much stack a call takes: each runs on a stack of its own that was painted before. Ends with 1 where one takes more than adderbloom.h says. */
#define _POSIX_C_SOURCE 200112L
#include "adderbloom.h"
#include <pthread.h>
#include <stdio.h>
#include <stdlib.h>
#include <string.h>

enum { SIZE = 1 << 20, PAINT = 0xA7, SAID = 70000, FRAMES = 3 };

static uint8_t lanes[LR800_LANES], frame[LR800_FRAME], store[LR800_STORE], flags[LR800_FLAGS], text[LR800_REPORT];
/* an order of three frames from number 0 on, and the frames: the one at the start number, the next, and one whose words are all tallied */
static uint8_t capture[LR800_ORDER_BYTES + FRAMES * LR800_FRAME_BYTES] = {0, 0, 0, 14, 1, 0, 0, 0, 0, 0, 0, 0, 0, FRAMES};
static uint8_t *const record = capture + LR800_ORDER_BYTES;
static uint8_t next_lanes[LR800_LANES];
static uint32_t verdict, state, wrong[LR800_COUNTS];
static lr800_run run;
static lr800_hunt_state search = {5, 5}; /* not open yet, so that opening it has something to do */
static uint8_t kept[LR800_HUNT_KEPT];
static lr800_found whole, in_pieces;

static void *nothing(void *x) { return x; }
static void *send_one(void *x) { lr800_send(lanes, sizeof lanes, store, sizeof store, frame, sizeof frame); return x; }
static void *receive_one(void *x) { lr800_receive(frame, sizeof frame, store, sizeof store, lanes, sizeof lanes, flags, sizeof flags); return x; }
static void *enter_one(void *x) { lr800_account_enter(&run.account, run.account.expected, flags, sizeof flags); return x; }
static void *step_one(void *x) { lr800_run_step(&run, record, LR800_FRAME_BYTES); return x; }
static void *report_it(void *x) { lr800_run_report(run, text, sizeof text); return x; }
static void *examine_one(void *x) { lr800_examine(capture, sizeof capture, text, sizeof text); return x; }
static void *judge_one(void *x) { verdict = lr800_examine_verdict(capture, sizeof capture); return x; }
/* the highest numbers: the further away a state is, the deeper the call goes */
static void *find_state(void *x) { state = lr800_traffic_state(UINT64_MAX); return x; }
static void *make_one(void *x) { lr800_traffic_frame(UINT32_MAX, lanes, sizeof lanes); return x; }
static void *make_next(void *x) { lr800_traffic_next(&state, next_lanes, sizeof next_lanes); return x; }
static void *check_one(void *x) { lr800_traffic_check(UINT32_MAX, lanes, sizeof lanes, wrong, LR800_COUNTS); return x; }
static void *hunt_one(void *x) { whole = lr800_hunt(capture, sizeof capture); return x; }
static void *open_search(void *x) { lr800_hunt_open(&search); return x; }
static void *feed_it(void *x) { lr800_hunt_feed(&search, kept, sizeof kept, capture, sizeof capture); return x; }
static void *ask_it(void *x) { in_pieces = lr800_hunt_answer(search); return x; }

static size_t taken(void *(*call)(void *)) {
    static uint8_t *stack;
    pthread_attr_t with;
    pthread_t thread;
    size_t untouched = 0;
    if (!stack && posix_memalign((void **)&stack, 4096, SIZE) != 0) exit(1);
    memset(stack, PAINT, SIZE);
    if (pthread_attr_init(&with) != 0 || pthread_attr_setstack(&with, stack, SIZE) != 0 || pthread_create(&thread, &with, call, NULL) != 0
        || pthread_join(thread, NULL) != 0) {
        fprintf(stderr, "stack: no thread can be had\n");
        exit(1);
    }
    pthread_attr_destroy(&with);
    while (untouched < SIZE && stack[untouched] == PAINT) untouched++;
    return SIZE - untouched;
}

/* The signal repeats after 2^31 - 1 bits: 2^64 - 1 bits lead where 3 do, and frame 2^32 - 1 is frame 1. Of each bit that is compared it or its inverse is
 * wrong. */
static int traffic_is_right(void) {
    static uint8_t same[LR800_LANES];
    uint32_t after = lr800_traffic_state(3), inverse_wrong[LR800_COUNTS];
    if (lr800_traffic_next(&after, same, sizeof same) != LR800_DONE || after != state || memcmp(same, next_lanes, sizeof same) != 0) return 0;
    if (lr800_traffic_frame(1, same, sizeof same) != LR800_DONE || memcmp(same, lanes, sizeof same) != 0) return 0;
    for (size_t i = 0; i < sizeof same; i++) same[i] ^= 0xFF;
    if (lr800_traffic_check(UINT32_MAX, same, sizeof same, inverse_wrong, LR800_COUNTS) != LR800_DONE) return 0;
    for (int p = 0; p < LR800_COUNTS; p++)
        if (wrong[p] + inverse_wrong[p] != 8 * LR800_LANES / LR800_COUNTS) return 0;
    return 1;
}

/* a capture's bytes as a run of symbols: the first frame starts behind the order and ten bytes of its own record, and is what was kept */
static int search_is_right(void) {
    const size_t offset = LR800_ORDER_BYTES + LR800_FRAME_BYTES - LR800_FRAME;
    if (whole.refusal != LR800_DONE || whole.found != 1 || whole.offset != offset) return 0;
    if (in_pieces.refusal != LR800_DONE || in_pieces.found != 1 || in_pieces.offset != offset) return 0;
    for (size_t j = 0; j < sizeof frame; j++)
        if (kept[lr800_hunt_place(offset + j)] != frame[j]) return 0;
    return search.taken == offset + sizeof frame && search.found == 1;
}

int main(void) {
    static void *(*const calls[])(void *) = {send_one, receive_one, enter_one, step_one, report_it, examine_one, judge_one,
                                             find_state, make_one, make_next, check_one, hunt_one, open_search, feed_it, ask_it};
    static const char *const names[] = {"lr800_send", "lr800_receive", "lr800_account_enter", "lr800_run_step", "lr800_run_report", "lr800_examine",
                                        "lr800_examine_verdict", "lr800_traffic_state", "lr800_traffic_frame", "lr800_traffic_next", "lr800_traffic_check",
                                        "lr800_hunt", "lr800_hunt_open", "lr800_hunt_feed", "lr800_hunt_answer"};
    static const uint8_t head[10] = {0, 0, 0x18, 0x06, 1, 1, 0, 0, 0, 0}; /* a frame, number 0 */
    size_t idle, most = 0;
    taken(nothing); /* what only the first thread does is no call's */
    idle = taken(nothing);
    run.phase = LR800_GOING;
    run.account.start = 1; /* so that number 0 is neither this one nor the next, and all words are tallied */
    for (size_t i = 0; i < sizeof calls / sizeof calls[0]; i++) {
        size_t bytes;
        for (uint8_t f = 0; f < FRAMES; f++) {
            uint8_t *to = record + f * LR800_FRAME_BYTES;
            memcpy(to, head, sizeof head);
            to[sizeof head - 1] = f; /* its number */
            memcpy(to + sizeof head, frame, sizeof frame);
        }
        run.account.expected = 0;
        bytes = taken(calls[i]);
        bytes = bytes > idle ? bytes - idle : 0; /* the smallest calls may take no more than starting and ending a thread does */
        printf("%s takes %lu bytes of stack\n", names[i], (unsigned long)bytes);
        if (bytes > most) most = bytes;
    }
    if (run.account.accepted != 2 || run.account.clean != 2 * LR800_FLAGS || verdict != LR800_PASS || !traffic_is_right() || !search_is_right()) {
        fprintf(stderr, "stack: the calls did not do their work\n");
        return 1;
    }
    return most > SAID;
}
