/* Rolvenko: launch rules translated, checked, started and scanned, also in instalments, in whole lists of rows and by shares for several
 * rule sets, printed as Structured Text, rows filled with the local time, the licence charge of a trace, its promises watched, and
 * whether rules can ever stop in service, as C functions.
 *
 * Link crates/rolvenko/out/librolvenko.a, which `rt lib` writes there, or what ./install puts down of it (-lrolvenko; pkg-config
 * rolvenko). It is for x86-64 Linux, needs memcpy and memset, allocates nothing and keeps nothing between calls, so calls from several
 * threads on memory of their own do not meet.
 *
 * The answer. Each function answers one 64-bit number, number * 2^56 + place * 2^24 + count:
 *
 *     number   0 for a success, else the refusal, 1 to 30; of the calls of a scan in instalments also 254 and 255
 *     place    the byte place of a refusal in the text or image; of 27 the scans before the refused one; 0 for a success and for the
 *              refusals 9, 12 to 20, 22, 24 to 26, 28 and 29
 *     count    of a success of rolvenko_translate and rolvenko_replay the image's length, of rolvenko_structured_text that of the
 *              Structured Text, of rolvenko_watch the watches, of rolvenko_scan, rolvenko_advance, rolvenko_finish and rolvenko_visit
 *              (refused or not) the steps; else 0
 *
 * But a success of rolvenko_charge is its sum; see there.
 *
 * Memory. What is lent as const is only read. A refusal leaves all lent memory as it was, but for one of rolvenko_replay (see there) and for
 * `paused`: a refused rolvenko_begin has taken the waiting row, and the refusal of a scan that rolvenko_finish tells ends it; a
 * rolvenko_visit may meet either. What a success writes stands at each function.
 * Nothing outside the lengths given is touched. The caller owes what C cannot say: each pointer has its length's elements behind it,
 * numbers of more than a byte are aligned, and what is written overlaps nothing else that is lent to the same call. With a length of 0 nothing is read
 * or written: pass any pointer that is not NULL. (NULL with 0 works in the archive as compiled, and the tests try it, but the proofs
 * are about slices and do not speak of it.) Every length and every content is allowed; nothing else is asked of the caller.
 */
#ifndef ROLVENKO_H
#define ROLVENKO_H

#include <stddef.h>
#include <stdint.h>

#ifdef __cplusplus
extern "C" {
#endif

#define ROLVENKO_TEXT_LIMIT 32768  /* bytes of a text */
#define ROLVENKO_IMAGE_LIMIT 65536 /* bytes of an image */
#define ROLVENKO_IMAGE_ROOM 49154  /* bytes that the image of any accepted text fits in (law buffer-bound) */
#define ROLVENKO_ST_ROOM 115998    /* bytes that the Structured Text of any accepted text fits in (law st-bound) */
#define ROLVENKO_NAMES 64          /* inputs, variables and timers together */
#define ROLVENKO_STATE 127         /* numbers of a state at most: 64 names, and an elapsed time for each of 63 timers */
#define ROLVENKO_ENTRIES 32        /* entries of a farm table */
#define ROLVENKO_COMBINATIONS 65536 /* scans of a closed profile */
#define ROLVENKO_WATCHES 16        /* watches of a text, and numbers of a report */

/* The parts of an answer. */
static inline unsigned rolvenko_number(uint64_t answer) { return (unsigned)(answer >> 56); }
static inline uint32_t rolvenko_place(uint64_t answer) { return (uint32_t)(answer >> 24); }
static inline uint32_t rolvenko_count(uint64_t answer) { return (uint32_t)(answer & 0xffffff); }

/* Translates a rule text and writes its image to the first bytes of `image`; count is the image's length. The bytes behind it stay.
 * Names are the same in any letter case; a word of the grammar in another case is fault 2.
 *   9         the text is longer than 32,768 bytes; place 0
 *   1 to 8    the first fault of the text; place is that of its token, or text_len for the end of the text
 *   23        a timer of a name that is no variable of range 0..1; place is that of the name
 *   30        a 17th watch; place is that of its word
 *   10        the text has no fault, but its image is longer than image_len; place is text_len
 */
uint64_t rolvenko_translate(const uint8_t *text, size_t text_len, uint8_t *image, size_t image_len);

/* Watches the promises of a text over a trace. Behind its rules a text has up to 16 watches, which its image does not hold:
 * `watch: G([c]);` must hold at each place of the trace, and `watch: G([c] -> X([c]));` over each two neighbouring places: where the first
 * condition holds at the earlier one, the second holds at the later one. They may use every current and previous value; at the start each
 * previous value is the current one. `trace` has the states in turn, the start first, elapsed times among their numbers; they may be any numbers.
 * `report` has ROLVENKO_WATCHES numbers; count is that of the watches, and as many numbers are written, in text order: the place of the trace,
 * 0 the start, where a watch first fails, for a pair the later place, or -1 if it never does. The numbers behind them stay. Both conditions of
 * a pair are worked out, and a watch fails where one meets 14 (as rolvenko_scan).
 *   9, 1 to 8, 23, 30 of the text, as rolvenko_translate
 *   12        the trace has no start or its last state is cut (without names, trace_len 0 is the start alone), or report_len is not
 *             ROLVENKO_WATCHES
 */
uint64_t rolvenko_watch(const uint8_t *text, size_t text_len, const int32_t *trace, size_t trace_len, int64_t *report, size_t report_len);

/* Prints a rule text as Structured Text, the text language of IEC 61131-3, and writes it to the first bytes of `out`; count is its length.
 * The bytes behind it stay. Sections VAR_INPUT and VAR (each left out if empty), one IF block or assignment a rule, then `_name := name;` for
 * each name in declared order; every name is a DINT and printed as declared, lines end with LF. Started with a state in names and previous
 * values alike, then given the inputs of a row that rolvenko_scan accepts, the statements leave the values of that scan.
 *   9, 1 to 8, 23, 30 of the text, as rolvenko_translate
 *   21        a declared name is IF, THEN, ELSIF, DINT, AND, OR or NOT, in any letter case, or there is a timer; place is that of the first such name in its
 *             declaration or, if that comes first, of the first word `timer`
 *   10        the Structured Text is longer than out_len; place is text_len
 */
uint64_t rolvenko_structured_text(const uint8_t *text, size_t text_len, uint8_t *out, size_t out_len);

/* Whether an image is sound: 0 as a whole, or
 *   9         the image is longer than 65,536 bytes; place 0
 *   11        it is not sound; place is that of the first header number or instruction that breaks soundness, or image_len where
 *             something is only missing at the end
 */
uint64_t rolvenko_check(const uint8_t *image, size_t image_len);

/* A state has one number for each name, in declared order, and behind them the elapsed milliseconds of each timer (an instruction 23), by the id of
 * its name: at most ROLVENKO_STATE numbers. A row has one number for each input, in declared order, and if the image has a timer one more, the
 * milliseconds since the last accepted scan.
 */

/* Writes the starting values to `state`, and an elapsed time of 0 for each timer. 0 as a whole, or
 *   9, 11     as rolvenko_check
 *   12        state_len is not the length of a state
 */
uint64_t rolvenko_start(const uint8_t *image, size_t image_len, int32_t *state, size_t state_len);

/* One scan: `state` becomes the next state; count is the steps, as many as the code has instructions. A refused scan counts the steps up to and
 * including the refusing instruction, 0 before the code.
 *   9, 11     as rolvenko_check
 *   12        state_len or row_len is not the length of a state, of a row
 *   18, 13    a number of the state, of the row, is outside its declared range; an elapsed time is outside 0 to its timer's limit, the milliseconds
 *             are negative
 *   14        a result outside 32 bits, or division by zero (mod by zero gives 0)
 *   15        a second condition of a rule holds
 *   16        a case's value equals the previous value
 *   22        of instruction 24 (rising) a value at or below the previous one, of 25 (falling) one at or above it
 *   17        a new value is outside its declared range
 */
uint64_t rolvenko_scan(const uint8_t *image, size_t image_len, int32_t *state, size_t state_len, const int32_t *row, size_t row_len);

/* A whole list of rows in one call: translates `text` into `image`, starts `state` and scans the rows in turn; the image is not checked at each row.
 * Row k is the next lengths[k] numbers of `cells`, as many of them as there are. A refused row leaves the state, and the next one goes on
 * from there. Written are, each as far as there is room and with what lies behind as it was:
 *   image     as rolvenko_translate; count is the image's length
 *   state     the state after the last row
 *   numbers   for each row 0, or the number of its refusal as rolvenko_scan answers it: 12 to 17 or 22
 *   steps     for each row its steps, as rolvenko_scan counts them
 *   trace     the states one behind the other: the start, then that after each accepted row
 * Refusals:
 *   9, 1 to 8, 23, 30, 10   as rolvenko_translate
 *   12        state_len is not the length of a state; the image stands in its buffer then, and all other memory is as it was
 */
uint64_t rolvenko_replay(const uint8_t *text, size_t text_len, uint8_t *image, size_t image_len, int32_t *state, size_t state_len,
                         const int32_t *cells, size_t cells_len, const size_t *lengths, size_t rows, uint8_t *numbers, size_t numbers_len,
                         size_t *steps, size_t steps_len, int32_t *trace, size_t trace_len);

/* Fills the inputs named `day`, `minute` and `again` (in any letter case) of `row`, those of them that the text declares, with the local
 * time of a farm at the UTC minute `utc`, counted from 1 January 1970. The other numbers of the row stay, milliseconds too; a variable of such a name is not filled, and no declared range is looked at. 0 as a whole, or a refusal.
 * `table` has two numbers for each of 1 to 32 entries, a UTC minute and the offset in minutes that holds from there on; table_len counts
 * the numbers. The first offset also holds for all earlier minutes.
 * 1440 * day + minute is utc plus the offset at utc, minute is 0 to 1439, and again is 1 if some earlier UTC minute (one below 0 too) has
 * the same day and minute, else 0. Refusals, in this order:
 *   9, 1 to 8, 23, 30 of the text, as rolvenko_translate
 *   19        the table: table_len is odd, 0 or over 64, a minute is outside 0 to 2,147,483,647 or not above the one before it, or an
 *             offset is outside -720 to 840
 *   20        utc is outside 0 to 2,147,483,647 (also where none of the three inputs is declared)
 *   12        row_len is not the length of a row: the inputs and, with a timer, the milliseconds
 */
uint64_t rolvenko_clock(const uint8_t *text, size_t text_len, const int64_t *table, size_t table_len, int64_t utc, int32_t *row, size_t row_len);

/* The licence charge of a trace. The variable `id` (names count from 0 in declared order, inputs first; a timer is one too) is the licences held. `trace`
 * has the states in turn, the start first, elapsed times among their numbers; `minutes` one number for each state but the start. Each row charges its
 * minutes of the licences held after it: those up to `threshold` at `rate`, only those above it at `rate_above`, in cents per
 * licence-hour. A success is the exact sum in sixtieths of a cent, 60 * cents + sixtieths; it is below every refusal, and
 * rolvenko_is_charge tells the two apart. Of a refusal, number and place are as above.
 *   9, 11     as rolvenko_check
 *   12        the trace has no start or its last state is cut (without names, trace_len 0 is the start alone)
 *   28        id is no variable, its low or one of its values in the trace is negative, threshold is negative, a rate is outside
 *             0..1,000,000, minutes are outside 0..1440 or not one for each row
 *   29        the charge is over 9,007,199,254,740,991 cents
 */
uint64_t rolvenko_charge(const uint8_t *image, size_t image_len, size_t id, const int32_t *trace, size_t trace_len, const int32_t *minutes,
                         size_t minutes_len, int32_t threshold, int32_t rate, int32_t rate_above);

/* The parts of a charge: whether there is one, whole cents, and the remainder of 0 to 59 sixtieths. */
static inline int rolvenko_is_charge(uint64_t answer) { return answer < (uint64_t)9 << 56; }
static inline uint64_t rolvenko_cents(uint64_t answer) { return answer / 60; }
static inline unsigned rolvenko_sixtieths(uint64_t answer) { return (unsigned)(answer % 60); }

/* Whether the rules of an image can never stop in service: every in-range state is scanned with every in-range row, and 0 as a whole says
 * that no such scan is refused. Then no list of in-range rows from rolvenko_start ever meets 14 to 17 or 22. Rows are tried inside states; the
 * last declared name moves fastest in both, from low to high. Nothing is written.
 *   9, 11     as rolvenko_check
 *   26        the image has a timer, or the product of all range sizes times the product of the input range sizes is over 65,536
 *   27        a scan is refused; place counts the scans before it, 0 to 65,535, and rolvenko_combination gives its state and row
 * It takes about as long as so many calls of rolvenko_scan: rolvenko_closed_part does some of them a call.
 */
uint64_t rolvenko_closed(const uint8_t *image, size_t image_len);

/* The same of a part of these scans: those before which `first`, first + 1, .. scans stand, at most `most` of them; behind the last there are
 * none, and 0 as a whole is the answer. place of a 27 counts the scans from the first of all. Parts in turn, each from where the one before
 * ended, answer what rolvenko_closed does: the first refusal, or that of the last.
 */
uint64_t rolvenko_closed_part(const uint8_t *image, size_t image_len, size_t first, size_t most);

/* The state and the row of the scan before which `index` scans of rolvenko_closed stand, as place of a 27 counts them. state_len is the
 * count of names, row_len that of inputs; both are written whole. 0 as a whole, or
 *   9, 11, 26 as rolvenko_closed
 *   12        state_len is not the count of names, row_len not that of inputs, or there are no more than `index` scans
 */
uint64_t rolvenko_combination(const uint8_t *image, size_t image_len, uint32_t index, int32_t *state, size_t state_len, int32_t *row,
                              size_t row_len);

/* A scan in instalments: post a row, begin a scan, advance it by so many steps at a time, finish it. What lies between the calls stands in
 * `paused`, ROLVENKO_PAUSED numbers of the caller, all 0 at first: the row that waits and the scan that is not over. Any content is safe;
 * with another length every call is idle and nothing moves. Instalments of any sizes give the result, total steps and state of
 * rolvenko_scan, if they are lent the image that the scan began with and the finish is lent the state of the start.
 */
#define ROLVENKO_PAUSED 640     /* numbers of a paused scan and its waiting row */
#define ROLVENKO_UNFINISHED 254 /* the scan is not finished; nothing moved */
#define ROLVENKO_IDLE 255       /* there is no scan, or no row waits; nothing moved */

static inline int rolvenko_is_unfinished(uint64_t answer) { return rolvenko_number(answer) == ROLVENKO_UNFINISHED; }
static inline int rolvenko_is_idle(uint64_t answer) { return rolvenko_number(answer) == ROLVENKO_IDLE; }

/* At any time: the row waits for the next scan, in place of one that waits already. It has no effect on the scan in progress. 0 as a
 * whole, or a refusal, which replaces nothing:
 *   9, 11     as rolvenko_check
 *   12        row_len is not the length of a row
 */
uint64_t rolvenko_post(int32_t *paused, size_t paused_len, const uint8_t *image, size_t image_len, const int32_t *row, size_t row_len);

/* Starts a scan of the waiting row: unfinished before the last scan is over, idle without a row. Else the row is taken and the tests
 * before the code are made; a refused scan is over. `state` is only read: it is written by rolvenko_finish. 0 as a whole, or
 *   9, 11     as rolvenko_check
 *   12        state_len is not the length of a state, or the row's not that of a row
 *   18, 13    as rolvenko_scan
 */
uint64_t rolvenko_begin(int32_t *paused, size_t paused_len, const uint8_t *image, size_t image_len, const int32_t *state, size_t state_len);

/* Does `steps` steps of the scan, or fewer if it comes to its end or is refused; count is how many, and there is no refusal. Idle without
 * a scan. With 0 steps done nothing moves. `image` is the one that the scan began with and is not checked again.
 */
uint64_t rolvenko_advance(int32_t *paused, size_t paused_len, const uint8_t *image, size_t image_len, size_t steps);

/* Asks for the end of the scan: idle without one, unfinished too early. A refused scan answers its refusal and is over; else `state`,
 * which must be as at the start, becomes the next state and the scan is over. Count is the total steps.
 *   14 to 17, 22  as rolvenko_scan
 *   11        an instalment was lent another image of the same length; place 0
 *   24        the state differs, in length too, from the one at the start; count 0, and the scan still awaits its finish
 */
uint64_t rolvenko_finish(int32_t *paused, size_t paused_len, int32_t *state, size_t state_len);

/* Several rule sets on one controller, each with its own image, state, paused memory and share. A visit starts a waiting row if no scan is
 * unfinished, gives that scan `share` steps and asks for its finish; what is left over is not carried. With the same image at every visit and a
 * state that only the visits write, a scan of c > 0 instructions that meets no refusal succeeds in exactly c divided by share, rounded up, visits.
 * The answer has the steps of this visit and the finish's number:
 *   0         `state` became the next state; a row that waits is for the next visit
 *   254, 255  the scan is unfinished, its share is done; neither scan nor row
 *   9, 11, 12, 18, 13   a refused start, as rolvenko_begin; no steps
 *   14 to 17, 22, 24    as rolvenko_finish
 *   25        share is outside 1 to 65,536; nothing moves
 */
#define ROLVENKO_SETS 8            /* rule sets of a round */
#define ROLVENKO_SHARE_LIMIT 65536 /* steps of a share */

uint64_t rolvenko_visit(int32_t *paused, size_t paused_len, const uint8_t *image, size_t image_len, int32_t *state, size_t state_len,
                        size_t share);

/* A round: visits of 1 to 8 sets in order, over memory that is lent for all of them together. What happens in one set changes no other. Each
 * part stands behind that of the set before:
 *   sets      three numbers a set: bytes of its image, numbers of its state, its share (a struct rolvenko_set); sets_len counts the numbers
 *   images    the images
 *   states    the states
 *   paused    ROLVENKO_PAUSED numbers a set: set i's, for rolvenko_post, begin at paused + i * ROLVENKO_PAUSED
 *   answers   one number a set, written: the answer of its visit, as rolvenko_visit gives it
 * Where images, states or paused are shorter than the table says, a set gets what is left; answers are written as far as there is room. 0 as a
 * whole, or
 *   25        sets_len is not three numbers for each of 1 to 8 sets, or a share is outside 1 to 65,536; before any visit, and nothing moves
 */
struct rolvenko_set {
    size_t image_len, state_len, share;
};

uint64_t rolvenko_round(int32_t *paused, size_t paused_len, const uint8_t *images, size_t images_len, int32_t *states, size_t states_len,
                        const size_t *sets, size_t sets_len, uint64_t *answers, size_t answers_len);

#ifdef __cplusplus
}
#endif

#endif
