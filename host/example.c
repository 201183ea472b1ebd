/* A rig in small, to copy from. A stream of frames is sent, damaged on its way, received and entered in an account; then the frames are written down as a
 * capture, which is examined in one call and stepped over record by record; then test traffic is sent, and what comes back of it is checked; and at last the
 * start of a frame is looked for in a recording that does not mark it (cut.c is a whole program for such recordings). Every answer is looked at: the program
 * ends with 1 at the first that is not what it must be.
 *   cc example.c -ladderbloom -o example && ./example */
#include "adderbloom.h"
#include <inttypes.h>
#include <stdio.h>
#include <stdlib.h>
#include <string.h>

enum {
    FRAMES = 40, ALLOWED = 20,               /* the order: frames asked, flagged words allowed */
    LOST = 21,                               /* the frame that will not lock, or is left out */
    LANES = 32, LANE_BYTES = LR800_LANES / LANES,
    BEHIND = 180,                            /* bytes by which a lane comes back later: 36 blocks of 40 bits */
    FILL = 448,                              /* words that carry the zeros of the sender's store: all of the first frame, 64 of the next */
    PILOTS_APART = 64, WRONG_PILOTS = 25,    /* a pilot is the first symbol of each 64; so many wrong ones are no lock */
    INFORMATION = 110,                       /* the first bits of a word; those behind them are parity, which no lane has */
    HIT = 5,                                 /* the frame of test traffic that has words which cannot be mended */
    TRAFFIC_BITS = 42240,                    /* of a frame of test traffic */
    BEFORE = 1000, RECORDED = 3,             /* the recording: symbols of nothing, frames behind them */
    PIECE = 700                              /* symbols by which it is searched in pieces */
};
static const uint32_t START = 4294967280u;   /* the first frame's number; the numbers run round at 2^32 within this stream */

static uint8_t sent[FRAMES][LR800_FRAME];
static uint8_t capture[LR800_ORDER_BYTES + FRAMES * LR800_FRAME_BYTES];
static uint8_t recording[BEFORE + RECORDED * LR800_FRAME];

static void must(int holds, const char *what) {
    if (holds) return;
    fprintf(stderr, "example: %s\n", what);
    exit(1);
}

/* seeded, so that every run of the program is the same (xorshift) */
static uint32_t random_below(uint32_t limit) {
    static uint32_t state = 800;
    state ^= state << 13;
    state ^= state >> 17;
    state ^= state << 5;
    return state % limit;
}

/* the test pattern: a byte of a lane, counted over the whole stream; before the stream there are the zeros of the fresh stores */
static uint8_t pattern(int lane, int at) {
    return (uint8_t)(at < 0 ? 0 : 7 * at + at / 256 + 31 * lane + 1);
}

static void send_stream(void) {
    static uint8_t store[LR800_STORE]; /* zero, so fresh */
    static uint8_t lanes[LR800_LANES];
    for (int f = 0; f < FRAMES; f++) {
        for (int i = 0; i < LR800_LANES; i++) lanes[i] = pattern(i / LANE_BYTES, f * LANE_BYTES + i % LANE_BYTES);
        must(lr800_send(lanes, sizeof lanes, store, sizeof store, sent[f], sizeof sent[f]) == LR800_DONE, "a frame was not sent");
    }
}

/* Flips one of the 126 bits of word 32 k + p: lane p's part of the 504 payload symbols that carry word k of all lanes. */
static void flip(uint8_t *frame, int word, int bit) {
    int k = word / LANES, p = word % LANES;
    int l = 63 * (p / 4) + bit / 2;
    int t = (p + 4 - (2 * l + l / 2 % 2) % 4) % 4; /* the tributary, XI to YQ, that takes lane p here */
    int m = 504 * k + l;
    frame[64 * (m / 63) + 1 + m % 63] ^= (uint8_t)(1 << (6 - 2 * t + bit % 2));
}

/* Damages so many words that are whole as yet, each by so many flips. Answers how many of these are of information. */
static uint32_t damage(uint8_t *frame, uint8_t *flips, int words, int count) {
    uint32_t information = 0;
    while (words > 0) {
        int word = (int)random_below(LR800_FLAGS), first = (int)random_below(126);
        if (flips[word]) continue;
        for (int n = 0; n < count; n++) {
            int bit = (first + 25 * n) % 126; /* different bits: 25 and 126 have no common divisor */
            flip(frame, word, bit);
            information += bit < INFORMATION;
        }
        flips[word] = (uint8_t)count;
        words--;
    }
    return information;
}

static void spoil_pilots(uint8_t *frame) {
    for (int n = 0; n < WRONG_PILOTS; n++) frame[PILOTS_APART * n] ^= 0xFF;
}

/* The line: every frame has words with one flip and with two, every tenth some with more, and the lost one has wrong pilots. */
static void damage_frame(uint8_t *frame, uint8_t *flips, int f, int lost) {
    memset(flips, 0, LR800_FLAGS);
    damage(frame, flips, 20, 1);
    damage(frame, flips, 6, 2);
    if (f % 10 == 5) {
        damage(frame, flips, 2, 3);
        damage(frame, flips, 1, 4);
        damage(frame, flips, 1, 5);
    }
    if (f == lost) spoil_pilots(frame);
}

/* Whether a frame's flags say what was done to its words, and whether all its words are whole again. Four flips and more may lie within two bits of another
 * code word: such a word comes out wrong and is not flagged, so that nothing is asked of its flag. */
static int all_mended(const uint8_t *flips, const uint8_t *flags) {
    int mended = 1;
    for (int word = 0; word < LR800_FLAGS; word++) {
        must(flips[word] > 3 || flags[word] == flips[word], "a flag does not say what was done to its word");
        if (flips[word] > 2) mended = 0;
    }
    return mended;
}

static void print_verdict(uint32_t verdict) {
    static const char *const names[] = {"NOT MEASURED", "PASS", "FAIL"};
    must(verdict <= LR800_FAIL, "no verdict at all");
    printf("verdict %s\n", names[verdict]);
}

/* The host receives and enters each frame by itself, and so keeps the rules by itself. One frame does not lock; FRAMES: every one does. */
static void receive_stream(const char *what, int lost, uint32_t verdict) {
    static uint8_t store[LR800_STORE]; /* the receiver's own */
    static uint8_t frame[LR800_FRAME], lanes[LR800_LANES], flags[LR800_FLAGS], flips[LR800_FLAGS];
    lr800_account account;
    int since = 2, due = 0; /* frames since one that was lost or not mended; before the first there is none to spoil anything */
    uint32_t stopped = 0, entered, said;
    uint64_t tallied;
    memset(store, 0, sizeof store); /* fresh */
    lr800_account_open(&account, START);
    for (int f = 0; f < FRAMES && !stopped; f++) {
        uint32_t number = START + (uint32_t)f, answer;
        memcpy(frame, sent[f], sizeof frame);
        damage_frame(frame, flips, f, lost);
        answer = lr800_receive(frame, sizeof frame, store, sizeof store, lanes, sizeof lanes, flags, sizeof flags);
        must(answer == (f == lost ? LR800_NO_LOCK : LR800_DONE), "a frame was received that does not lock, or refused although it does");
        switch (answer) {
        case LR800_DONE:
            entered = lr800_account_enter(&account, number, flags, sizeof flags);
            since = all_mended(flips, flags) ? since + 1 : 0;
            break;
        case LR800_NO_LOCK:
            entered = lr800_account_lose(&account, number); /* else the account would not know of it */
            since = 0;
            break;
        default: entered = answer; /* a length is wrong: the frame was not measured */
        }
        if (entered != LR800_DONE) { /* ends the run, and its verdict is then not measured */
            fprintf(stderr, "example: frame %" PRIu32 " refused: %s\n", number, lr800_refusal_text(entered));
            stopped = 1;
        }
        /* what comes back has been on its way for up to 36 blocks, so in this frame and the two before it */
        if (since < 3) continue;
        for (int i = 0; i < LR800_LANES; i++)
            must(lanes[i] == pattern(i / LANE_BYTES, f * LANE_BYTES + i % LANE_BYTES - BEHIND), "a lane came back other than it was sent");
        due++;
    }
    must(!stopped && account.expected == START + FRAMES, "an entry was refused");
    must(account.accepted + account.missing == FRAMES && account.missing == (lost < FRAMES), "the account does not know of every frame");
    /* words that carry the fresh store's zeros are no measurement; neither of the two frames that have such words is the lost one */
    tallied = account.clean + account.one + account.two + account.flagged;
    must(account.start == START && tallied + FILL == LR800_FLAGS * account.accepted, "other words are tallied than are due");
    said = lr800_account_verdict(&account, FRAMES, ALLOWED, stopped);
    must(said == verdict, "another verdict");
    printf("%s\nlanes came back as sent, 36 blocks later, in %d frames\n", what, due);
    printf("accepted %" PRIu64 "\nmissing %" PRIu64 "\n", account.accepted, account.missing);
    printf("clean %" PRIu64 "\none %" PRIu64 "\ntwo %" PRIu64 "\nflagged %" PRIu64 "\n", account.clean, account.one, account.two, account.flagged);
    print_verdict(said);
}

/* four bytes, highest first */
static uint8_t *put_number(uint8_t *to, uint32_t number) {
    for (int shift = 24; shift >= 0; shift -= 8) *to++ = (uint8_t)(number >> shift);
    return to;
}

/* A record's length counts what follows it; then come version 1 and the kind, 0 an order and 1 a frame. */
static uint8_t *put_head(uint8_t *to, uint32_t length, uint8_t kind) {
    to = put_number(to, length);
    *to++ = 1;
    *to++ = kind;
    return to;
}

/* The order, and the frames as sent, but for one that is left out; FRAMES leaves out none. Returns the capture's length. */
static size_t write_capture(int left_out) {
    uint8_t *to = put_head(capture, LR800_ORDER_BYTES - 4, 0);
    to = put_number(put_number(put_number(to, START), FRAMES), ALLOWED);
    for (int f = 0; f < FRAMES; f++) {
        if (f == left_out) continue;
        to = put_number(put_head(to, LR800_FRAME_BYTES - 4, 1), START + (uint32_t)f);
        memcpy(to, sent[f], LR800_FRAME);
        to += LR800_FRAME;
    }
    return (size_t)(to - capture);
}

static void print_report(const uint8_t *text, size_t written) {
    must(written > 0, "there was no room for the report");
    must(fwrite(text, 1, written, stdout) == written, "the report was not written"); /* no 00 stands behind it */
}

/* A capture that is in memory, all of it: one call says its verdict, and one its report. */
static void examine_capture(const char *what, size_t length, uint32_t verdict) {
    static uint8_t text[LR800_REPORT];
    must(lr800_examine_verdict(capture, length) == verdict, "another verdict");
    printf("\n%s\n", what);
    print_report(text, lr800_examine(capture, length, text, sizeof text));
}

/* Stands for a file: the capture's bytes up to its length, and then the end, or a read that fails. */
typedef struct {
    size_t length, place;
    int fails;
} input;

/* Stands for read(): the next bytes, at most so many. Answers how many, 0 at the end, or -1 where reading fails. */
static long read_some(input *from, uint8_t *to, size_t count) {
    if (count > from->length - from->place) count = from->length - from->place;
    if (count == 0 && from->fails) return -1;
    memcpy(to, capture + from->place, count);
    from->place += count;
    return (long)count;
}

/* A capture that is read record by record. Two rules are left to the host: to give every byte in its turn, and to say where reading failed. */
static void run_capture(const char *what, input from, uint32_t refused_by, uint32_t verdict) {
    static uint8_t piece[LR800_FRAME_BYTES], text[LR800_REPORT];
    size_t have;
    long got;
    uint32_t answer = LR800_DONE;
    lr800_run run;
    lr800_run_open(&run);
    while (run.phase < LR800_STOPPED) {
        have = 0;
        do {
            got = read_some(&from, piece + have, lr800_wanted(piece, have) - have);
            if (got > 0) have += (size_t)got;
        } while (got > 0 && have < lr800_wanted(piece, have));
        if (got < 0) {
            lr800_run_stop(&run); /* a read that fails is no end of the capture */
            break;
        }
        if (have == 0) break; /* the end, between two records; an end within one is told by the step */
        answer = lr800_run_step(&run, piece, have); /* any but LR800_DONE has stopped the run; so may LR800_DONE: the phase tells */
    }
    must(answer == refused_by, "a record was refused, or was not, or by another number");
    must(lr800_run_verdict(run) == verdict, "another verdict");
    must(from.fails || lr800_examine_verdict(capture, from.length) == verdict, "another verdict than in one call");
    printf("\n%s\n", what);
    if (answer != LR800_DONE) printf("refused by %" PRIu32 ": %s\n", answer, lr800_refusal_text(answer));
    print_report(text, lr800_run_report(run, text, sizeof text));
}

/* A host's slip: the order and the first frame as one piece. It is told, and nothing of it is entered. */
static void run_two_at_once(const char *what) {
    static uint8_t text[LR800_REPORT];
    lr800_run run;
    uint32_t answer;
    lr800_run_open(&run);
    answer = lr800_run_step(&run, capture, LR800_ORDER_BYTES + LR800_FRAME_BYTES);
    must(answer == LR800_MORE_THAN_ONE && run.phase == LR800_STOPPED, "two records were taken for one");
    printf("\n%s\nrefused by %" PRIu32 ": %s\n", what, answer, lr800_refusal_text(answer));
    print_report(text, lr800_run_report(run, text, sizeof text));
}

/* Test traffic in place of the pattern, frame after frame from the seed on; any frame can be had directly, too. */
static void send_traffic(void) {
    static uint8_t store[LR800_STORE]; /* zero, so fresh */
    static uint8_t lanes[LR800_LANES], directly[LR800_LANES];
    uint32_t state = LR800_TRAFFIC_SEED; /* all that is kept between frames */
    for (int f = 0; f < FRAMES; f++) {
        must(lr800_traffic_next(&state, lanes, sizeof lanes) == LR800_DONE, "a frame of test traffic was not made");
        must(lr800_send(lanes, sizeof lanes, store, sizeof store, sent[f], sizeof sent[f]) == LR800_DONE, "a frame of test traffic was not sent");
    }
    must(state == lr800_traffic_state((uint64_t)TRAFFIC_BITS * FRAMES), "another state than after so many bits");
    must(lr800_traffic_frame(FRAMES - 1, directly, sizeof directly) == LR800_DONE, "a frame of test traffic was not made directly");
    must(memcmp(directly, lanes, sizeof lanes) == 0, "the last frame is another one directly");
}

/* What comes back of it wrong, lane by lane. A frame is checked by its place in the stream, 0 first, whatever number it has in a capture; a lost one counts,
 * too. Every frame may have words that can be mended, one has some that cannot, and one does not lock; FRAMES: none. */
static void check_traffic(const char *what, int mendable, int hit, int lost) {
    static uint8_t store[LR800_STORE]; /* the receiver's own */
    static uint8_t frame[LR800_FRAME], lanes[LR800_LANES], flags[LR800_FLAGS], flips[LR800_FLAGS];
    uint32_t wrong[LR800_COUNTS], in_lane[LR800_COUNTS] = {0}, passed = 0, in_all = 0;
    int may_be_wrong[LANES / 2] = {0}, frames_with = 0, lanes_with = 0, since = 2; /* frames since a lost one */
    memset(store, 0, sizeof store); /* fresh */
    for (int f = 0; f < FRAMES; f++) {
        uint32_t answer, in_frame = 0;
        memcpy(frame, sent[f], sizeof frame);
        memset(flips, 0, sizeof flips);
        if (mendable) {
            damage(frame, flips, 20, 1);
            damage(frame, flips, 6, 2);
        }
        if (f == hit) passed = damage(frame, flips, 2, 3); /* three flips are always flagged, and the word passes as it was received */
        if (f == lost) spoil_pilots(frame);
        answer = lr800_receive(frame, sizeof frame, store, sizeof store, lanes, sizeof lanes, flags, sizeof flags);
        must(answer == (f == lost ? LR800_NO_LOCK : LR800_DONE), "a frame was received that does not lock, or refused although it does");
        since = answer == LR800_DONE ? since + 1 : 0;
        if (since < 3) continue; /* no lanes, or such as may be wrong by the loss: there is nothing to be learned of the line */
        must(all_mended(flips, flags) == (f != hit), "a frame was mended that cannot be, or was not although it can");
        /* a word's information comes back in its own lane and in the one with which that exchanges symbols, 16 on or 16 back */
        for (int word = 0; word < LR800_FLAGS; word++) may_be_wrong[word % 16] |= flips[word] > 2;
        must(lr800_traffic_check((uint32_t)f, lanes, sizeof lanes, wrong, LR800_COUNTS) == LR800_DONE, "a frame of test traffic was not checked");
        for (int p = 0; p < LANES; p++) {
            must(wrong[p] == 0 || may_be_wrong[p % 16], "bits are wrong in a lane that was not hit");
            in_lane[p] += wrong[p];
            in_frame += wrong[p];
        }
        frames_with += in_frame > 0;
        in_all += in_frame;
    }
    for (int p = 0; p < LANES; p++) lanes_with += in_lane[p] > 0;
    must(in_all == passed, "other bits are wrong than were flipped and not mended");
    printf("\n%s\nwrong bits %" PRIu32 "\nframes with any %d\nlanes with any %d\n", what, in_all, frames_with, lanes_with);
}

/* What an instrument writes down that marks no frame: nothing, which is zeros here, until the first frame comes. */
static void record_line(void) {
    memset(recording, 0, BEFORE);
    for (int f = 0; f < RECORDED; f++) memcpy(recording + BEFORE + f * LR800_FRAME, sent[f], LR800_FRAME);
}

/* Where a frame starts in so many symbols of the recording, in one call and in pieces. What was found is told by `found`: 0 is an offset, too. */
static void find_start(const char *what, size_t length, uint32_t refused_by, uint32_t found) {
    static uint8_t kept[LR800_HUNT_KEPT]; /* the search's own, like its state */
    lr800_found said = lr800_hunt(recording, length), in_pieces;
    lr800_hunt_state state;
    size_t frames = 0;
    lr800_hunt_open(&state);
    for (size_t place = 0; place < length && !state.found; place += PIECE) {
        size_t count = length - place;
        if (count > PIECE) count = PIECE;
        must(lr800_hunt_feed(&state, kept, sizeof kept, recording + place, count) == LR800_DONE, "a piece was refused");
    }
    in_pieces = lr800_hunt_answer(state);
    must(said.refusal == refused_by && said.found == found, "a start was found where there is none, or was not, or the run was refused, or was not");
    must(in_pieces.refusal == said.refusal && in_pieces.found == said.found && in_pieces.offset == said.offset, "in pieces the search says something else");
    printf("\n%s\n", what);
    if (said.refusal != LR800_DONE) {
        printf("refused by %" PRIu32 ": %s\n", said.refusal, lr800_refusal_text(said.refusal));
    } else if (!said.found) {
        printf("no frame starts there\n");
    } else {
        /* who has only the pieces finds the first frame in what was kept, and the next one from symbol state.taken on, within the piece that was fed last */
        for (size_t j = 0; j < LR800_FRAME; j++) must(kept[lr800_hunt_place(said.offset + j)] == sent[0][j], "the frame kept is not the first that was sent");
        must(state.taken == said.offset + LR800_FRAME, "other symbols were taken in than those up to the frame's end");
        /* each frame stands right behind the one before, as long as no symbol was lost or added: a frame has no mark of its own but its pilots */
        for (size_t at = (size_t)said.offset; length - at >= LR800_FRAME; at += LR800_FRAME)
            must(memcmp(recording + at, sent[frames++], LR800_FRAME) == 0, "a frame cut from the recording is not the one that was sent");
        printf("a frame starts at symbol %" PRIu64 "\nframes cut from there on %d\n", said.offset, (int)frames);
    }
}

static input whole(size_t length) {
    input from = {0, 0, 0};
    from.length = length;
    return from;
}

int main(void) {
    input broken;
    send_stream();
    receive_stream("the stream, damaged on its way:", FRAMES, LR800_PASS);
    printf("\n");
    receive_stream("the same, one frame without lock:", LOST, LR800_NOT_MEASURED);
    examine_capture("the capture of all frames as sent, in one call:", write_capture(FRAMES), LR800_PASS);
    run_capture("the same, record by record:", whole(write_capture(FRAMES)), LR800_DONE, LR800_PASS);
    run_capture("the same without one of them:", whole(write_capture(LOST)), LR800_DONE, LR800_NOT_MEASURED);
    run_capture("all of them, the last cut short:", whole(write_capture(FRAMES) - 1), LR800_CUT_SHORT, LR800_NOT_MEASURED);
    broken = whole(write_capture(FRAMES));
    broken.fails = 1;
    run_capture("all of them, and then a read that fails:", broken, LR800_DONE, LR800_NOT_MEASURED);
    run_two_at_once("the order and the first frame as one piece:");
    send_traffic();
    check_traffic("test traffic, undamaged:", 0, FRAMES, FRAMES);
    check_traffic("test traffic, damaged and mended:", 1, FRAMES, FRAMES);
    check_traffic("test traffic, two words of a frame not mended:", 1, HIT, FRAMES);
    check_traffic("test traffic, two words not mended and another frame without lock:", 1, HIT, LOST);
    record_line();
    find_start("a recording that marks no frame, of nothing and then three frames:", sizeof recording, LR800_DONE, 1);
    find_start("its beginning, up to the last symbol but one of the first frame:", BEFORE + LR800_FRAME - 1, LR800_DONE, 0);
    find_start("its beginning, shorter than a frame:", LR800_FRAME - 1, LR800_SHORT_RUN, 0);
    must(fflush(stdout) == 0, "not all of it was written");
    return 0;
}
