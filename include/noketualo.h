/*
 * Noketualo: the statement of a month file, dividing a pot of cents by weights, and checking a
 * division that someone else made.
 *
 * A text is a run of bytes. A list is one too, eight bytes to a number, low byte first. A length
 * counts bytes, and either may start at any address. Three things are the caller's duty:
 *   - a pointer is never null, also where its length is 0: pass any other address there;
 *   - all bytes of a length are lent, and until the call returns nobody else writes to them, nor
 *     reads those of the output;
 *   - the output overlaps no input.
 * Everything else is judged, and answered by a refusal if need be. A call keeps nothing for the
 * next, so several threads may call at once.
 */
#ifndef NOKETUALO_H
#define NOKETUALO_H

#include <stddef.h>
#include <stdint.h>

#ifdef __cplusplus
extern "C" {
#endif

/*
 * The refusals of the whole engine under their numbers. The division gives COUNT, ROOM, BIG and
 * BASE, the check COUNT, BIG and BASE. Where several apply, the first in that order is given. The
 * statement call gives ROOM alone: what is wrong with a month stands in the statement's text.
 */
enum noketualo_refusal_number {
    NOKETUALO_ACCEPTED = 0,
    NOKETUALO_COUNT = 1,  /* not whole numbers, too many of them, or lists that differ in number */
    NOKETUALO_ROOM = 2,   /* a lent output is too short */
    NOKETUALO_MONTH = 3,  /* no such month, or not its number of days */
    NOKETUALO_RANGE = 4,  /* an entry outside its range */
    NOKETUALO_ORDER = 5,  /* a row not above the one before */
    NOKETUALO_LINK = 6,   /* a named row doesn't exist */
    NOKETUALO_PAIR = 7,   /* customer and zone already taken by an earlier account */
    NOKETUALO_BIG = 8,    /* the pot or the sum of the weights is above its limit */
    NOKETUALO_BASE = 9,   /* a pot above zero and weights that add up to zero */
    NOKETUALO_TEXT = 10   /* a month file line that doesn't fit */
};

/* The limits themselves are accepted. */
#define NOKETUALO_MOST_WEIGHTS 64
#define NOKETUALO_LARGEST_POT UINT64_C(100000000000)
#define NOKETUALO_LARGEST_WEIGHT_SUM UINT64_C(10000000000000)

/* A longer month file is refused as a whole: its statement is refuse=1,0,0. */
#define NOKETUALO_MOST_FILE_BYTES 65536

/* Room that is enough for every statement, which is proved. */
#define NOKETUALO_STATEMENT_ROOM 12144

/* How many bytes a list of that many numbers takes. */
#define NOKETUALO_BYTES(numbers) ((size_t)(numbers) * 8u)

/*
 * Whole answers of the check. Any other answer is a refusal and says neither.
 * The division also answers 0 where it accepts: this NO belongs to the check alone.
 */
#define NOKETUALO_ANSWER_YES UINT64_C(256)
#define NOKETUALO_ANSWER_NO UINT64_C(0)

/*
 * Divides the pot, in cents. Share i is the whole part of pot times weight i over the sum of the
 * weights; the leftover cents go one each to the largest remainders, lower position first among
 * equals. A pot of zero with weights that add up to zero, or with none, gives zeros.
 *
 * Refuses, the first that applies:
 *   COUNT  a length that is no multiple of eight, the output's too, or more than 64 weights
 *   ROOM   fewer numbers of room in the output than weights
 *   BIG    pot above 10^11, or weights that add up to more than 10^13
 *   BASE   pot above zero and weights that add up to zero
 *
 * Accepted, it writes one amount for each weight, in their order, and no byte beyond; refused, it
 * writes no byte. Ask noketualo_refusal() whether it accepted, not the answer as a whole: its value
 * is 0 today, and may come to say something.
 */
uint64_t noketualo_divide(uint64_t pot, const uint8_t *weights, size_t weights_len,
                          uint8_t *amounts, size_t amounts_len);

/*
 * Whether the amounts are a closest division of the pot: they add up to it, and no other list of
 * whole cents with that sum lies closer to the exact shares, by the sum of squares. Where cents
 * could as well lie elsewhere, every such division is a yes. A pot of zero with weights that add up
 * to zero is a yes exactly when all amounts are zero. Amounts may be of any size.
 *
 * Refuses, the first that applies:
 *   COUNT  a length that is no multiple of eight, more than 64 weights, or weights and amounts that
 *          differ in number
 *   BIG    pot above 10^11, or weights that add up to more than 10^13
 *   BASE   pot above zero and weights that add up to zero
 */
uint64_t noketualo_check(uint64_t pot, const uint8_t *weights, size_t weights_len,
                         const uint8_t *amounts, size_t amounts_len);

/*
 * Reads a month file, settles it, and writes its statement: a line charge=account,network,black
 * start,reactive for each account, a line credit=owner,network,non-zone network,black
 * start,reactive for each owner, and total=all charges,all credits; or, where the file or its month
 * is refused, the one line refuse=number,table,row. Each line ends with a line feed, and no zero byte
 * comes behind the last.
 *
 * Refuses:
 *   ROOM   the output is too short for the statement; NOKETUALO_STATEMENT_ROOM bytes never are
 *
 * Accepted, its value is the statement's length, and no byte beyond it is written; refused, the
 * value is 0 and no byte is written. The call takes about 44 KB of stack.
 */
uint64_t noketualo_statement(const uint8_t *text, size_t text_len, uint8_t *out, size_t out_len);

/* The refusal's number, or NOKETUALO_ACCEPTED. */
static inline unsigned noketualo_refusal(uint64_t answer) {
    return (unsigned)(answer & 0xffu);
}

/*
 * What an accepted call has to say: the statement its length, the check 1 for yes and 0 for no, the
 * division 0.
 */
static inline uint64_t noketualo_value(uint64_t answer) {
    return answer >> 8;
}

/* Puts a number into the eight bytes at place. */
static inline void noketualo_store(uint8_t *place, uint64_t number) {
    for (unsigned byte = 0; byte < 8; byte++) {
        place[byte] = (uint8_t)(number >> (8u * byte));
    }
}

/* Takes a number from the eight bytes at place. */
static inline uint64_t noketualo_load(const uint8_t *place) {
    uint64_t number = 0;
    for (unsigned byte = 0; byte < 8; byte++) {
        number |= (uint64_t)place[byte] << (8u * byte);
    }
    return number;
}

#ifdef __cplusplus
}
#endif

#endif
