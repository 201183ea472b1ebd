/* Cuts the frames out of a recording that marks no frame: symbols, a byte each, begun and broken off anywhere.
 *   cc cut.c -ladderbloom -o cut && ./cut < recording > frames
 *
 * The first frame is where the search finds a start. From there on frames are cut by counting, LR800_FRAME symbols each, and written to standard output, one
 * right behind the other. Each is asked whether it locks by itself, and is written all the same. One that does not is damaged, or symbols were lost or added
 * before it or in it; one in whose last quarter that happened locks even so.
 *
 * What is cut is no capture and gives no verdict: the frames have no numbers, and where 6,144 symbols are missing in the recording, a whole frame or not, there
 * is no trace of it: what is behind locks as if nothing were missing. Numbers are what the instrument that made the recording must give. And a start found is
 * the first place that locks and no more: payload can resemble pilots.
 *
 * Where no frame locks from the one at symbol S on, symbols may have been lost or added before it. What is behind can then be had by a search from one symbol
 * behind the start of the last frame that locks: tail -c +$((S - 6142)) recording | ./cut > rest
 *
 * Standard error has a line each for the symbol at which the first frame starts, the first five frames that do not lock, how many frames were cut, how many
 * symbols were left over behind the last, and, where there are some, how many frames do not lock. Symbols and frames are counted from 0. Exit status:
 *    0   a start was found, and every frame that was cut locks
 *    1   no start was found, or the recording is shorter than a frame or was refused, or reading or writing failed: a line says which. Frames that were written
 *        until then are not all there are
 *    2   some frame that was cut does not lock
 *   64   wrong use: there are no options, and no file is named */
#include "adderbloom.h"
#include <errno.h>
#include <inttypes.h>
#include <stdio.h>
#include <string.h>

/* symbols read at once: what is cut is the same for any number of them */
#ifndef PIECE
#define PIECE 65536
#endif

enum { NAMED = 5 }; /* frames without lock that get a line each; the others are only counted */

/* all that is held of the recording */
static uint8_t piece[PIECE], kept[LR800_HUNT_KEPT], frame[LR800_FRAME];

static size_t have;                      /* symbols of the next frame that are there */
static uint64_t start, frames, unlocked; /* the symbol at which the first frame starts; frames cut; those of them that do not lock */

/* Writes a frame that is whole. Answers 0 where writing fails. */
static int put_frame(void) {
    if (fwrite(frame, 1, sizeof frame, stdout) != sizeof frame) return 0;
    if (!lr800_hunt(frame, sizeof frame).found) { /* in a run of one frame's length there is one offset, so this says whether the frame locks */
        if (unlocked < NAMED) fprintf(stderr, "cut: frame %" PRIu64 ", at symbol %" PRIu64 ", does not lock\n", frames, start + frames * LR800_FRAME);
        unlocked++;
    }
    frames++;
    have = 0;
    return 1;
}

/* The first frame, out of what the search has kept, where it stands in another order. */
static int put_first(void) {
    fprintf(stderr, "cut: the first frame starts at symbol %" PRIu64 "\n", start);
    for (size_t j = 0; j < sizeof frame; j++) frame[j] = kept[lr800_hunt_place(start + j)];
    return put_frame();
}

/* Symbols behind the first frame, in their order. */
static int put_more(const uint8_t *from, size_t count) {
    while (count > 0) {
        size_t taken = sizeof frame - have;
        if (taken > count) taken = count;
        memcpy(frame + have, from, taken);
        have += taken;
        from += taken;
        count -= taken;
        if (have == sizeof frame && !put_frame()) return 0;
    }
    return 1;
}

static int writing_failed(void) {
    fprintf(stderr, "cut: writing failed: %s\n", strerror(errno));
    return 1;
}

int main(int words, char **word) {
    lr800_hunt_state state;
    lr800_found said;
    uint64_t symbols = 0; /* that were read */
    size_t got;
    int why;
    if (words > 1) {
        fprintf(stderr, "cut: takes no %s\nusage: cut < recording > frames\n", word[1]);
        return 64;
    }
    lr800_hunt_open(&state);
    do {
        size_t searched = 0; /* symbols of this piece that the search took in: all of them where it finds nothing */
        got = fread(piece, 1, sizeof piece, stdin);
        why = errno;
        if (!state.found) {
            uint32_t refused = lr800_hunt_feed(&state, kept, sizeof kept, piece, got);
            if (refused != LR800_DONE) {
                fprintf(stderr, "cut: refused by %" PRIu32 " behind %" PRIu64 " symbols: %s\n", refused, symbols, lr800_refusal_text(refused));
                return 1;
            }
            searched = (size_t)(state.taken - symbols);
            said = lr800_hunt_answer(state);
            start = said.offset;
            if (said.found && !put_first()) return writing_failed();
        }
        if (!put_more(piece + searched, got - searched)) return writing_failed();
        symbols += got;
    } while (got == sizeof piece);
    if (fflush(stdout) != 0) return writing_failed();

    said = lr800_hunt_answer(state);
    if (said.found) fprintf(stderr, "cut: frames cut: %" PRIu64 "\ncut: symbols left over behind the last: %lu\n", frames, (unsigned long)have);
    if (unlocked > 0)
        fprintf(stderr, "cut: frames that do not lock: %" PRIu64 "; symbols were lost or added in them or before them, or they are damaged\n", unlocked);
    if (ferror(stdin)) { /* no end of the recording, so nothing is said of what it has not */
        fprintf(stderr, "cut: reading failed behind %" PRIu64 " symbols: %s\n", symbols, strerror(why));
        return 1;
    }
    if (said.refusal != LR800_DONE) {
        fprintf(stderr, "cut: refused by %" PRIu32 ", having %" PRIu64 " symbols: %s\n", said.refusal, symbols, lr800_refusal_text(said.refusal));
        return 1;
    }
    if (!said.found) {
        fprintf(stderr, "cut: no frame starts in these %" PRIu64 " symbols\n", symbols);
        return 1;
    }
    return unlocked > 0 ? 2 : 0;
}
