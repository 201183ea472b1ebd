/* The sending and receiving logic of the 800LR coherent line (OIF-800LR-01.0), the reader of captures, the account of a run and its verdict, test traffic with
 * its checker, and the search for a frame's start, for a host program in C. Link with libadderbloom.a: x86-64, System V calling convention.
 *
 * Every call ends, and any bytes, lengths and stored numbers are lawful. Nothing allocates or keeps state of its own: what is kept between calls is the
 * caller's, and calls that share no memory may run at once. A call needs up to 70 kB of stack, and calls memcpy and memset.
 *
 * What no contract can speak of is the caller's to keep: a pointer leads to as much memory as is said, aligned for its type, that nothing else writes during
 * the call and that is not lent to the call twice; only a slice of length 0 may be null. Padding within a struct may change: compare its members, not its
 * bytes. */
#ifndef ADDERBLOOM_H
#define ADDERBLOOM_H

#include <stddef.h>
#include <stdint.h>

/* The version of this header and of the archive that comes with it. Any change of what a host was told raises the first number, an addition the second,
 * everything else the third. */
#define LR800_VERSION_MAJOR 3
#define LR800_VERSION_MINOR 1
#define LR800_VERSION_PATCH 0
#define LR800_VERSION "3.1.0"

#ifdef __cplusplus
extern "C" {
#endif

/* ---- Refusals ---- */

/* Where a call answers a refusal's number, it is the lowest of those that apply, and a refused call changes nothing, except that bytes refused in a run stop
 * the run. 0 says that none of these numbers applies: the call has done its work, but for lr800_run_step, which also answers 0 where it stops a run for
 * something that has no number. Whether a run goes on is told by its phase. */
enum {
  LR800_DONE = 0, /* no number applies; whether a run goes on is told by its phase */
  /* by lr800_send, lr800_receive, 4 by lr800_account_enter, 3 by lr800_traffic_frame and lr800_traffic_next, 1 and 3 by lr800_traffic_check, and 2 by
   * lr800_hunt_feed */
  LR800_WRONG_INPUT_LENGTH = 1,   /* input is not LR800_LANES bytes long (sending, checking test traffic), LR800_FRAME (receiving) */
  LR800_WRONG_STORE_LENGTH = 2,   /* the store is not LR800_STORE bytes long; what a search keeps (lr800_hunt_feed) is not LR800_HUNT_KEPT symbols */
  LR800_WRONG_OUTPUT_LENGTH = 3,  /* output is not LR800_FRAME bytes long (sending), LR800_LANES (receiving, test traffic), or not LR800_COUNTS counts */
  LR800_WRONG_FLAGS_LENGTH = 4,   /* there are not LR800_FLAGS flag bytes */
  LR800_NO_LOCK = 5,              /* no lock: 25 or more of the 96 pilot bytes differ */
  /* by lr800_read, in what it returns, and lr800_run_step */
  LR800_CUT_SHORT = 6,            /* a record is cut short */
  LR800_WRONG_RECORD_LENGTH = 7,  /* its length is not 14 or 6,150 */
  LR800_WRONG_RECORD_VERSION = 8, /* its version is not 1 */
  LR800_WRONG_RECORD_KIND = 9,    /* its kind does not match its length */
  /* by lr800_account_enter, and 10 and 11 by lr800_account_lose and lr800_run_step */
  LR800_LATE = 10,                /* the frame's number is late: 2^31 or more after the expected one, round 2^32 */
  LR800_ABOVE_LIMIT = 11,         /* after the entry, accepted or missing frames would stand above 1,000,000, or some tally above 384,000,000 */
  LR800_WRONG_TALLIES = 12,       /* fewer words tallied than the frame's number asks for: some of its tallied flag bytes are above 3 */
  /* by lr800_hunt and lr800_hunt_answer, in what they return */
  LR800_SHORT_RUN = 13,           /* the run of symbols, all its pieces together, is shorter than a frame: fewer than LR800_FRAME */
  /* by lr800_run_step */
  LR800_MORE_THAN_ONE = 22,       /* more bytes than one record: more stand behind a whole record of lawful length, version and kind */
  /* by lr800_hunt_feed */
  LR800_TOO_MANY_SYMBOLS = 23     /* no start was found yet, and the symbols taken in and the piece's are 2^64 or more together */
};

/* What a refusal's number says, as one line of text with no 0A. Any number is lawful. */
static inline const char *lr800_refusal_text(uint32_t number) {
  switch (number) {
  case LR800_DONE: return "done";
  case LR800_WRONG_INPUT_LENGTH: return "the input has a wrong length";
  case LR800_WRONG_STORE_LENGTH: return "the store has a wrong length";
  case LR800_WRONG_OUTPUT_LENGTH: return "the output has a wrong length";
  case LR800_WRONG_FLAGS_LENGTH: return "the flags have a wrong length";
  case LR800_NO_LOCK: return "no lock: 25 or more of the 96 pilots differ";
  case LR800_CUT_SHORT: return "the record is cut short";
  case LR800_WRONG_RECORD_LENGTH: return "the record's length is not 14 or 6,150";
  case LR800_WRONG_RECORD_VERSION: return "the record's version is not 1";
  case LR800_WRONG_RECORD_KIND: return "the record's kind does not match its length";
  case LR800_LATE: return "the frame's number is late";
  case LR800_ABOVE_LIMIT: return "accepted or missing frames or a tally would stand above the limit";
  case LR800_WRONG_TALLIES: return "the frame's tallies are not those due to its number";
  case LR800_SHORT_RUN: return "the run of symbols is shorter than a frame";
  case LR800_MORE_THAN_ONE: return "more bytes than one record";
  case LR800_TOO_MANY_SYMBOLS: return "the symbols taken in and the piece's are 2^64 or more together";
  default: return "no refusal has this number";
  }
}

/* ---- Sending and receiving ---- */

#define LR800_LANES 5280 /* 32 lanes of 165 bytes, lane 0 first; the top bit of a byte goes first */
#define LR800_STORE 2880 /* a delay store; all zero is fresh, any content is lawful */
#define LR800_FRAME 6144 /* symbols of a frame, a byte each: XI, XQ, YI, YQ, two bits each, XI on top */
#define LR800_FLAGS 384  /* a byte for each word of a frame, that of word k of lane p at 32 k + p: 0, 1 or 2 bits mended, 3 flagged */

/* Sends a frame. The store is the sender's own: lend it to every call of a stream, and to no receiver.
 * Answers 0, 1, 2 or 3. At 0, store and output have been written in full. */
uint32_t lr800_send(const uint8_t *input, size_t input_length, uint8_t *store, size_t store_length, uint8_t *output, size_t output_length);

/* Receives a frame. The store is the receiver's own: lend it to every call of a stream, and to no sender.
 * Answers 0, 1, 2, 3, 4 or 5. At 0, store, output and flags have been written in full. A frame refused by 5, LR800_NO_LOCK, is lost: it must be entered as a
 * loss (lr800_account_lose), or the account does not know of it. One refused by 1 to 4 was not measured: the host must stop the run.
 * If both stores were fresh at the first frame and every frame was received, each lane comes back 36 blocks (1,440 bits) later, behind zeros. After a frame
 * that was lost or refused, the next 36 blocks of each lane may be wrong, so the next two frames. */
uint32_t lr800_receive(const uint8_t *input, size_t input_length, uint8_t *store, size_t store_length, uint8_t *output, size_t output_length,
                       uint8_t *flags, size_t flags_length);

/* ---- The account: the host receives, and enters each frame ---- */

/* The next expected number, the start number, frames accepted and missing, and of the words tallied those with 0, 1 or 2 bits mended and those flagged. Any
 * numbers are lawful. Neither a frame nor a loss changes the start number: by it an entry knows which words to tally.
 * Before 3.0.0 no account had a start number. A host made for a version before must be compiled again; a run or an account that it began cannot go on, and must
 * be opened again and begin with its first record. */
typedef struct lr800_account {
  uint32_t expected;
  uint32_t start;
  uint64_t accepted;
  uint64_t missing;
  uint64_t clean;
  uint64_t one;
  uint64_t two;
  uint64_t flagged;
} lr800_account;

/* The account of a new order: start is both the expected and the start number, and every other number is 0. */
void lr800_account_open(lr800_account *account, uint32_t start);

/* Enters a frame that was received, by its number and its flag bytes: the frames of a gap before it are missing.
 * Words that still carry the zeros with which the sender's store starts are no measurement, so the frame's number, round 2^32, says which words are tallied:
 * none of the frame at the start number; 320 of the next number's, all but words 0 and 1 of each lane (flag places 0 to 63); all 384 of every other number's.
 * This holds too where the frame at the start number was lost or is missing. Flag bytes of words that are not tallied are not looked at.
 * Answers 0, 4, 10, 11 or 12; a frame that is refused was not measured, and the host must stop the run: give lr800_verdict a `stopped` other than 0.
 * A frame that is refused here has moved the store that was lent to lr800_receive: only a copy made before can undo that. */
uint32_t lr800_account_enter(lr800_account *account, uint32_t number, const uint8_t *flags, size_t flags_length);

/* Enters a frame that lr800_receive refused by 5 as a loss: it is missing, and the frames of a gap before it. Answers 0, 10 or 11; where it is refused the
 * host must stop the run. */
uint32_t lr800_account_lose(lr800_account *account, uint32_t number);

/* What is said of a run. What is not set says not measured. */
enum { LR800_NOT_MEASURED = 0, LR800_PASS = 1, LR800_FAIL = 2 };

/* The verdict on the numbers of a run. Give 0 for stopped only if an order came first and alone and the account was opened with its start number; the capture
 * was read to its end; every frame of it was given to lr800_receive and entered, once and in its turn, with its own flags or, refused by 5, as a loss; and
 * nothing was refused but by 5.
 * Only the numbers given are judged: no limit is applied, and nothing is known of late frames.
 *   LR800_NOT_MEASURED  stopped is not 0, or asked is below 2, or accepted is not asked, or missing is not 0, or the four tallies and 448 do not total 384
 *                       times accepted; no sum wraps
 *   LR800_PASS          else, if flagged is at most allowed
 *   LR800_FAIL          else
 * So an order for one frame is always not measured: no word of its frame is tallied. */
uint32_t lr800_verdict(uint32_t asked, uint32_t allowed, uint64_t accepted, uint64_t missing, uint64_t clean, uint64_t one, uint64_t two, uint64_t flagged,
                       uint32_t stopped);

/* The same on an account, so that no two of its numbers are exchanged. What lr800_verdict asks of the host before it gives 0 for stopped holds here too. */
static inline uint32_t lr800_account_verdict(const lr800_account *account, uint32_t asked, uint32_t allowed, uint32_t stopped) {
  return lr800_verdict(asked, allowed, account->accepted, account->missing, account->clean, account->one, account->two, account->flagged, stopped);
}

/* ---- Captures ---- */

#define LR800_ORDER_BYTES 18   /* of an order's record */
#define LR800_FRAME_BYTES 6154 /* of a frame's record, the longest */

/* What stands at a place. These are not the capture's kind bytes: there an order is 0 and a frame 1, here 0 is none, 1 an order and 2 a frame. */
enum { LR800_RECORD_NONE = 0, LR800_RECORD_ORDER = 1, LR800_RECORD_FRAME = 2 };

/* A record read. What a kind does not have is 0. */
typedef struct lr800_record {
  uint32_t refusal; /* 6 to 9, or 0 */
  uint32_t kind;    /* LR800_RECORD_NONE at the end and where the record is refused, LR800_RECORD_ORDER, LR800_RECORD_FRAME: not the capture's kind byte */
  uint32_t number;  /* the frame's number; of an order, that of the first frame ordered */
  uint32_t asked;   /* of an order: frames asked */
  uint32_t allowed; /* of an order: flagged words allowed */
  size_t symbols;   /* of a frame: the place in the capture from which its LR800_FRAME symbols lie */
  size_t next;      /* the next place; neither the end nor a refusal moves it */
} lr800_record;

/* What stands at a place of a capture. A place at or beyond the end is the end. A refusal is no end, though its kind is LR800_RECORD_NONE too: look at
 * `refusal` first. The place does not move then, and the host must stop the run, or step over the bytes from there on. */
lr800_record lr800_read(const uint8_t *capture, size_t capture_length, size_t place);

/* How many bytes of a record to ask for, by those of it that are there: 4, then LR800_ORDER_BYTES or LR800_FRAME_BYTES by its length, and 4 where that is
 * not lawful. A host that reads an input asks for more until it has as many as are wanted, or the input ends, and steps over what it has. */
size_t lr800_wanted(const uint8_t *piece, size_t piece_length);

/* ---- A whole run: the host gives every byte of a capture, record by record, and says where reading failed; every other rule is kept here ---- */

/* Where a run stands. Any phase above LR800_STOPPED is taken for it, and is LR800_STOPPED after a step. */
enum { LR800_UNORDERED = 0, LR800_GOING = 1, LR800_STOPPED = 2 };

/* A run: its phase, the order's figures and the account. Any numbers are lawful. All zero is a run before its first record. It has no lanes and no store: a
 * host that wants the lanes calls lr800_receive. */
typedef struct lr800_run {
  uint32_t phase;
  uint32_t asked;
  uint32_t allowed;
  lr800_account account;
} lr800_run;

/* A run before its first record. */
void lr800_run_open(lr800_run *run);

/* One record's bytes: all of them, and nothing more. No bytes are no record: they change no figure, stop nothing and answer 0.
 * The first order opens the account; a frame is received and entered, or without lock entered as a loss; a refused record or entry, bytes behind a record, a
 * second order and a frame before any order stop the run, and nothing else changes. A stopped run changes no more.
 * Answers 6 to 9, by which the record at the beginning is refused, whatever stands behind; else 22, LR800_MORE_THAN_ONE, where more bytes stand behind it:
 * nothing is entered then, so that neither 10 nor 11 applies, and no byte is passed over unnoticed; else 10 or 11, by which its entry (of a frame without
 * lock: the loss) is refused; else 0. Any of these but 0 has stopped the run.
 * 0 does not say that the run goes on, its phase does: a second order and a frame before any order have no number, stop the run and answer 0, and whatever
 * comes to a stopped run answers 0. A frame without lock answers 0 once its loss is entered, never 5: it shows in account.missing. */
uint32_t lr800_run_step(lr800_run *run, const uint8_t *piece, size_t piece_length);

/* Stops a run, as a host must whose input could not be read to its end: a read that fails is no end. Its figures and its account stay, and its verdict is
 * LR800_NOT_MEASURED. */
void lr800_run_stop(lr800_run *run);

/* The verdict of a run, once every byte was given: before that it speaks of the bytes given so far. LR800_NOT_MEASURED before an order and once stopped; else
 * what lr800_verdict says of its figures and its account. */
uint32_t lr800_run_verdict(lr800_run run);

#define LR800_REPORT 213 /* room for every report */

/* The report of a run, once every byte was given, as text: eight lines, each ended by one 0A, at the beginning of a buffer; no 00 is set behind it. Answers
 * how many bytes it takes. A buffer too small for it is not touched, and the answer is 0. */
size_t lr800_run_report(lr800_run run, uint8_t *text, size_t text_length);

/* ---- A whole capture in memory, in one call ---- */

/* The report of a capture, as lr800_run_report leaves that of a run which was given each of its records in turn: at the beginning of a buffer, for which
 * LR800_REPORT is room enough. Answers how many bytes it takes; a buffer too small for it is not touched, and the answer is 0. All bytes must be there: what
 * could not be read to its end is no whole capture, and neither call can tell. */
size_t lr800_examine(const uint8_t *capture, size_t capture_length, uint8_t *text, size_t text_length);

/* Its verdict: LR800_NOT_MEASURED, LR800_PASS or LR800_FAIL. */
uint32_t lr800_examine_verdict(const uint8_t *capture, size_t capture_length);

/* ---- Test traffic: a known signal in place of the client's, and how much of it comes back wrong ---- */

/* The signal is PRBS31, x^31 + x^28 + 1 from all ones, inverted: a new bit is the exclusive or of those 28 and 31 before it, and goes out inverted as it
 * enters. It is placed from lane 0 on, ten bits a lane, and round the lanes again: stream bit 320 s + 10 p + i is bit i of symbol s of lane p, symbols of ten
 * bits that are counted over the whole stream. A frame is 42,240 bits: frame f begins at stream bit 42,240 f.
 *
 * f, which calls take as `frame`, is the number of a frame in the sender's counting: 0 at the fresh start of the stream and one more with each frame sent, so
 * that a frame which was lost on the line still counts. It is not the number that a frame has in a capture, and it does not run round: a host whose frame
 * numbers run round must count the frames itself.
 *
 * A state is the last 31 bits before they were inverted, the youngest lowest. Any number is lawful: its top bit is not looked at, and is 0 after a call that
 * was not refused. A state whose 31 bits are all 0 stays 0 and sends ones for ever.
 *
 * A refused call changes neither state nor output nor counts. */
#define LR800_TRAFFIC_SEED 0x7FFFFFFF /* the state before the first bit: all ones */
#define LR800_COUNTS 32               /* counts of the checker, one a lane, that of lane 0 first */

/* The state after so many bits from LR800_TRAFFIC_SEED on, found directly. Any number of bits is lawful; frame f begins at the state after 42,240 f bits. */
uint32_t lr800_traffic_state(uint64_t bits);

/* The lanes of frame f, found directly, as lr800_send takes them. Answers 0 or 3. At 0, output has been written in full. */
uint32_t lr800_traffic_frame(uint32_t frame, uint8_t *output, size_t output_length);

/* The lanes of the frame that begins at a kept state, which moves on to the state after their 42,240 bits. The state is the sender's own: from
 * LR800_TRAFFIC_SEED on, call by call, the frames are 0, 1, 2 and so on.
 * Answers 0 or 3. At 0, state and output have been written in full. */
uint32_t lr800_traffic_next(uint32_t *state, uint8_t *output, size_t output_length);

/* Counts the wrong bits of frame f as lr800_receive recovered it, in each lane: wrong[p] is set to how many of the compared bits of lane p differ from what
 * was sent 36 blocks (1,440 bits of a lane) before. Of frame 0 nothing is compared, and all counts are set to 0; of frame 1 everything but its first three
 * blocks (120 bits of a lane); of later frames everything.
 * Answers 0, 1 or 3. At 0, every count has been set anew; nothing is added to what stood there. After a frame that was lost or refused, the next two frames'
 * lanes may be wrong, as lr800_receive says: their counts then tell of the loss, and not of flips alone. */
uint32_t lr800_traffic_check(uint32_t frame, const uint8_t *lanes, size_t lanes_length, uint32_t *wrong, size_t wrong_length);

/* ---- The hunt: where a frame starts in a recording that does not mark it ---- */

/* A run of symbols is any number of them, a byte each; offset o is the place with o of them before it. A start is an offset from which on all LR800_FRAME
 * symbols of a frame are there and lock: lr800_receive would not refuse them by 5, LR800_NO_LOCK.
 * What a search promises is the smallest start and no more. Payload can resemble pilots, so it may be one at which no frame was sent. But where a frame stands
 * whole in the run and locks, damaged or not, the answer is its offset or a smaller one. */

/* What a search says. */
typedef struct lr800_found {
  uint32_t refusal; /* 13, LR800_SHORT_RUN, exactly where there are fewer than LR800_FRAME symbols; found and offset are then 0. Else 0 */
  uint32_t found;   /* 1 if a start was found; else 0 */
  uint64_t offset;  /* the smallest start; 0 where none was found, which is also an offset: look at `found` first */
} lr800_found;

/* The search over a whole run in memory. Over just LR800_FRAME symbols, `found` says whether they lock. */
lr800_found lr800_hunt(const uint8_t *run, size_t run_length);

/* The search over a run that comes in pieces, cut anywhere: open, feed each piece in its turn, and ask at any time. The answer is that of lr800_hunt over all
 * pieces so far, one behind the other, but for those that were refused: what is fed next counts as standing right behind what was fed before. So after 2 feed
 * the piece again; after 23 feed a shorter part of it, or open the search anew and feed the last 6,143 symbols again, from which on offsets then count. */
#define LR800_HUNT_KEPT 6144 /* symbols that a search keeps between pieces, a byte each: as many as a frame has */

/* Where symbol n of a run, counted from 0 over all pieces, is kept: in 64 columns of 96, those that follow each other 64 apart, as a frame's pilots do, side by
 * side in one and round. */
static inline size_t lr800_hunt_place(uint64_t n) {
  return (size_t)(96 * (n % 64) + n / 64 % 96);
}

/* The numbers that a search keeps. Any numbers are lawful. All zero is a search before its first piece. */
typedef struct lr800_hunt_state {
  uint64_t taken; /* how many symbols were taken in: all that were fed, until a start is found; then offset + LR800_FRAME, up to the end of the frame there */
  uint64_t found; /* 0 until a start is found; any other number says that one was, and 1 is what lr800_hunt_feed sets */
} lr800_hunt_state;

/* A search before its first piece. What the kept symbols hold does not matter then. */
void lr800_hunt_open(lr800_hunt_state *state);

/* The next piece, of any length; an empty one changes nothing. state and kept are the search's own: lend them to every call of one search, and to no other.
 * Symbol by symbol, until a start is found: symbol n is written at kept[lr800_hunt_place(n)], and state->taken becomes n + 1; then, once that is LR800_FRAME or
 * more, a start is found if the last LR800_FRAME symbols, kept[lr800_hunt_place(state->taken - LR800_FRAME + j)], j from 0 on, lock.
 * Once a start is found nothing changes any more, whatever is fed. kept then holds the frame that starts there: its symbol j is
 * kept[lr800_hunt_place(offset + j)]. Of the piece in which it was found as many symbols were taken in as state->taken has grown by; a host that goes on
 * behind that frame goes on with the rest of it. One that takes the start for a false one opens the search again and feeds from offset + 1 on, having copied
 * the symbols that it has only in kept to memory of its own, in their order; offsets then count from there.
 * Numbers that no search left are taken as they are: where found is 0, as if so many symbols had been taken in, of which the last are kept, and no start found
 * among them; where found is not 0, as if one was.
 * Answers 0; 2, there are not LR800_HUNT_KEPT kept symbols; or 23, found is 0, and state->taken and piece_length add up to 2^64 or more. A refused piece is not
 * taken in, not even a part of it, and neither state nor kept changes. */
uint32_t lr800_hunt_feed(lr800_hunt_state *state, uint8_t *kept, size_t kept_length, const uint8_t *piece, size_t piece_length);

/* What the search says of all that was fed so far: 13 where state.taken is below LR800_FRAME, which in the midst of a search only says that more is wanted;
 * else, where state.found is not 0, the offset state.taken - LR800_FRAME; else that nothing was found. */
lr800_found lr800_hunt_answer(lr800_hunt_state state);

/* the structs are laid out as in the archive, or this does not compile */
typedef char lr800_account_has_56_bytes[sizeof(lr800_account) == 56 ? 1 : -1];
typedef char lr800_account_has_start_at_4[offsetof(lr800_account, start) == 4 && offsetof(lr800_account, accepted) == 8 ? 1 : -1];
typedef char lr800_record_has_40_bytes[sizeof(lr800_record) == 40 ? 1 : -1];
typedef char lr800_run_has_72_bytes[sizeof(lr800_run) == 72 ? 1 : -1];
typedef char lr800_found_has_16_bytes[sizeof(lr800_found) == 16 && offsetof(lr800_found, offset) == 8 ? 1 : -1];
typedef char lr800_hunt_state_has_16_bytes[sizeof(lr800_hunt_state) == 16 && offsetof(lr800_hunt_state, found) == 8 ? 1 : -1];

#ifdef __cplusplus
}
#endif

#endif
