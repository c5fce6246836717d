/* Belaykeel: the offers of a set-up page, kept under choices and strikes that are withdrawn in any order.
 *
 * The offers are the largest set of settings under the decisions in force that is closed (arc consistent) and in which every setting of a
 * selected field passes its test (is singleton arc consistent), over neighbourhoods of the sheet's reach; at reach 24 that is the whole
 * sheet. No call chooses a set-up, and wiped out (14) is the only verdict: offers in every field do not show that a complete set-up exists.
 *
 * Every call returns 0, or the number of the first cause of its refusal (the table below); a refused call leaves session, offers list and
 * output as they were, and one refused by 6 the work spaces too. No call allocates, and none asks anything of its arguments but what C
 * asks: each pointer is valid for its length (and not NULL, even where the length is 0), and what a call writes (session, offers, rows,
 * memory, output) overlaps nothing else that it is given.
 *
 * A call that gives offers needs about 163,000 bytes of stack; 196,608 bytes are enough. The arrays of closing are 80,640 of the 163,000:
 * counts 2 x 11,520, support sets 55,296, removal list 2,304. The table of the triples is 74,308.
 */
#ifndef BELAYKEEL_H
#define BELAYKEEL_H

#include <stddef.h>
#include <stdint.h>

#ifdef __cplusplus
extern "C" {
#endif

#define BELAYKEEL_FIELDS 24 /* the most fields of a sheet, and the most settings of a field */
#define BELAYKEEL_LARGEST_SETTING 1000000 /* the largest setting, and the largest number c of a rule or triple, in micrometres */
#define BELAYKEEL_ENCODER_TOLERANCE 2 /* how far the distance of a pair may be from c under kind 5, in micrometres */
#define BELAYKEEL_EVENTS 64 /* the most events of a session */
#define BELAYKEEL_SHEET_BYTES 29273 /* the most bytes of a sheet */
#define BELAYKEEL_SHEET_NUMBERS 8184 /* the most numbers of a sheet */
#define BELAYKEEL_OFFERS_WORDS 24 /* the least words of the offers list */
#define BELAYKEEL_ROWS_WORDS 13248 /* the least words of the first work space */
#define BELAYKEEL_MEMORY_WORDS 13824 /* the least words of the second work space */

/* The numbers, in words. The calls with a session try them in the order 6; 1 to 5; 15, at open 18 in its place; 7, 9, 10, 11, 13, 12, 14.
 * Reading and writing try 1 to 5 first and 6 last; writing alone has 20, directly after 3. */
enum {
    BELAYKEEL_ACCEPTED = 0,
    BELAYKEEL_ENDS_INSIDE = 1, /* bytes or numbers end inside the sheet */
    BELAYKEEL_ILL_FORMED = 2, /* a fourth group continues, or a last group is 0 after another group */
    BELAYKEEL_OUT_OF_RANGE = 3, /* a number of the sheet is outside its range */
    BELAYKEEL_OUT_OF_ORDER = 4, /* settings, rules or triples do not rise, or the fields of a rule or triple do not */
    BELAYKEEL_SURPLUS = 5, /* bytes or numbers follow the sheet's end */
    BELAYKEEL_TOO_SHORT = 6, /* the offers list, a work space or the output is too short */
    BELAYKEEL_UNKNOWN = 7, /* the engine is not 1 to 3, or the field or position is not on the sheet */
    BELAYKEEL_TOO_NARROW = 8, /* never given: engine 2 runs at every reach */
    BELAYKEEL_NO_ORDER = 9, /* the order does not hold every field just one time */
    BELAYKEEL_ADDED_AGAIN = 10, /* the decision to add is in force */
    BELAYKEEL_NOT_IN_FORCE = 11, /* the decision to withdraw is not in force */
    BELAYKEEL_NO_ROOM = 12, /* there are 64 events and one is to be added */
    BELAYKEEL_NOTHING_PAST = 13, /* back, and there is no event */
    BELAYKEEL_WIPED_OUT = 14, /* under the decisions that would hold after the call a field has no offer */
    BELAYKEEL_MALFORMED = 15, /* the session is malformed */
    BELAYKEEL_NO_SELECTION = 18, /* the mask of selected fields is empty or names a field beyond the sheet */
    BELAYKEEL_RETIRED = 20 /* the writer met a rule of kind 2, which is read but no longer written */
};

/* The engines. None alters the offers, and each serves every sheet. */
enum {
    BELAYKEEL_SAC_1 = 1,
    BELAYKEEL_SAC_2 = 2,
    BELAYKEEL_QUEUE = 3
};

/* An event: kind 1 is a choice added, 2 a strike added, 3 a choice withdrawn, 4 a strike withdrawn. */
typedef struct {
    uint32_t kind;
    uint32_t field;
    uint32_t position;
} belaykeel_event;

/* What the control room holds between calls. Bit v of choices[f] means that position v of field f is chosen, and of strikes[f] that it is
 * struck. The first `count` events have happened, the oldest first; later places are not read. Bit f of `selected` means that field f is
 * selected; only an accepted open sets it. Before open the session may hold anything. One of 0s selects no field, so it is malformed until
 * it is opened. */
typedef struct {
    uint32_t choices[BELAYKEEL_FIELDS];
    uint32_t strikes[BELAYKEEL_FIELDS];
    belaykeel_event events[BELAYKEEL_EVENTS];
    uint32_t count;
    uint32_t selected;
} belaykeel_session;

/* What reading and writing give: 0 and how many numbers or bytes, or the number of a refusal and 0. */
typedef struct {
    uint32_t number;
    size_t length;
} belaykeel_answer;

/* The parameters of a call:
 *   session            altered by an accepted call
 *   sheet              the sheet's bytes
 *   engine             1, 2 or 3
 *   order              every field position just one time, in the order in which the engine visits those that are selected
 *   selected           the mask of selected fields: bit f means that every setting offered in field f passes its test; the offers of the
 *                      other fields are closed only. (1 << n) - 1 selects all n fields of a sheet
 *   field, position    the decision, counted from 0
 *   offers             an accepted call writes a mask for each field of the sheet: bit v means that position v is offered; later words stay
 *   rows, memory       work spaces; what they hold before does not matter, and they may hold anything afterwards, except where 6 refuses:
 *                      then they too are as they were
 */

/* Starts: no decisions, no events, and this mask of selected fields, which the session keeps for later calls. */
uint32_t belaykeel_open(belaykeel_session *session, const uint8_t *sheet, size_t sheet_len, uint32_t engine, const uint8_t *order,
    size_t order_len, uint32_t selected, uint32_t *offers, size_t offers_len, uint32_t *rows, size_t rows_len, uint32_t *memory,
    size_t memory_len);

/* Changes nothing and gives the offers. */
uint32_t belaykeel_show(belaykeel_session *session, const uint8_t *sheet, size_t sheet_len, uint32_t engine, const uint8_t *order,
    size_t order_len, uint32_t *offers, size_t offers_len, uint32_t *rows, size_t rows_len, uint32_t *memory, size_t memory_len);

/* Adds a choice, or a strike. */
uint32_t belaykeel_choose(belaykeel_session *session, const uint8_t *sheet, size_t sheet_len, uint32_t engine, const uint8_t *order,
    size_t order_len, uint32_t field, uint32_t position, uint32_t *offers, size_t offers_len, uint32_t *rows, size_t rows_len,
    uint32_t *memory, size_t memory_len);
uint32_t belaykeel_strike(belaykeel_session *session, const uint8_t *sheet, size_t sheet_len, uint32_t engine, const uint8_t *order,
    size_t order_len, uint32_t field, uint32_t position, uint32_t *offers, size_t offers_len, uint32_t *rows, size_t rows_len,
    uint32_t *memory, size_t memory_len);

/* Withdraws a choice, or a strike, whenever it was made. */
uint32_t belaykeel_withdraw_choice(belaykeel_session *session, const uint8_t *sheet, size_t sheet_len, uint32_t engine,
    const uint8_t *order, size_t order_len, uint32_t field, uint32_t position, uint32_t *offers, size_t offers_len, uint32_t *rows,
    size_t rows_len, uint32_t *memory, size_t memory_len);
uint32_t belaykeel_withdraw_strike(belaykeel_session *session, const uint8_t *sheet, size_t sheet_len, uint32_t engine,
    const uint8_t *order, size_t order_len, uint32_t field, uint32_t position, uint32_t *offers, size_t offers_len, uint32_t *rows,
    size_t rows_len, uint32_t *memory, size_t memory_len);

/* Drops the latest event and reverses it: an added decision goes, a withdrawn one returns. */
uint32_t belaykeel_back(belaykeel_session *session, const uint8_t *sheet, size_t sheet_len, uint32_t engine, const uint8_t *order,
    size_t order_len, uint32_t *offers, size_t offers_len, uint32_t *rows, size_t rows_len, uint32_t *memory, size_t memory_len);

/* Drops all events; the decisions remain. */
uint32_t belaykeel_coil_on(belaykeel_session *session, const uint8_t *sheet, size_t sheet_len, uint32_t engine, const uint8_t *order,
    size_t order_len, uint32_t *offers, size_t offers_len, uint32_t *rows, size_t rows_len, uint32_t *memory, size_t memory_len);

/* Reads a sheet's bytes to its list of numbers, and writes such a list as bytes. Refused by 1 to 5 first and by 6 last; places past the
 * output stay as they were. Rules of kind 2 are read and not written: in the list such a kind is refused by 20, where no number before it
 * is refused. */
belaykeel_answer belaykeel_read(const uint8_t *sheet, size_t sheet_len, uint32_t *output, size_t output_len);
belaykeel_answer belaykeel_write(const uint32_t *numbers, size_t numbers_len, uint8_t *output, size_t output_len);

#ifdef __cplusplus
}
#endif

#endif
