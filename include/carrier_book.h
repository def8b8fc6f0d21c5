/* The carrier book: a dynamic lower envelope of carriers' offers, kept in a table of signed 64-bit words that the caller lends.
 *
 * Link with libcarrier.a, which `rt lib` in crates/carrier writes to out/ there (Linux on x86-64-v2). `bash include/install PREFIX` puts
 * this header, the archive and a file for pkg-config under a prefix.
 *
 * An offer has a number (1 to 9,999), a rate in cents per kilogram (-100,000 to 100,000) and a base in cents (-1,000,000,000 to
 * 1,000,000,000). Its price at a load of q kilograms (-1,000,000 to 1,000,000) is base + rate * q. No two live offers have equal
 * numbers. Several may have one rate: offers are ordered by falling rate, then rising base, then rising number, and of one rate only
 * the first in that order is listed or named by a query; a report has every one under its price.
 *
 * Every array is passed as a pointer to its first word and its length in words, so that no call can step outside it. The pointer is
 * not null, also where the length is 0. What a call writes overlaps no other array of the call. A book occupies CARRIER_WORDS(capacity) words of its
 * table, from `start` on; no call writes a word outside that part, and nothing else may write inside it. There is no
 * other state: a book may be copied, moved or stored as words, and calls on different tables may run at the same time.
 *
 * A call that is declined returns one of the numbers below 0 and leaves every word of every array as it was. Causes are tried in the
 * order of the list. On a table whose part was not made by these calls the first seven of the list, down to CARRIER_LOAD_RANGE, still
 * hold; past them a call returns, with any answer, and leaves the words outside the part unchanged.
 */
#ifndef CARRIER_BOOK_H
#define CARRIER_BOOK_H

#include <stddef.h>
#include <stdint.h>

#ifdef __cplusplus
extern "C" {
#endif

/* The largest capacity. */
#define CARRIER_MOST_OFFERS 4096

/* How many words a book of that capacity takes. */
#define CARRIER_WORDS(capacity) (64 * ((size_t)(capacity) + 1) + 1024)

/* How many words an array has to have: `counts` of a post, a withdrawal or a take-back, `found` of a query, `out` of a listing a piece
 * and of a report an offer, `met` of a meeting, `mark` of a chart mark, `units` of a voucher, `piece` of a reading. Longer ones keep
 * their later words. */
#define CARRIER_COUNTS_WORDS 3
#define CARRIER_FOUND_WORDS 3
#define CARRIER_PIECE_WORDS 3
#define CARRIER_OFFER_WORDS 3
#define CARRIER_MET_WORDS 4
#define CARRIER_MARK_WORDS 2
#define CARRIER_UNITS_WORDS 1

/* Why a call was declined. -6, once of a post at a live rate, is no longer given. */
#define CARRIER_CAPACITY (-1)         /* open: the capacity is not in 1 to 4,096 */
#define CARRIER_NO_ROOM (-2)          /* open: fewer words than the book takes from `start` on */
#define CARRIER_NO_BOOK (-3)          /* each on a table but open and check: no book at `start`, or its part is cut short */
#define CARRIER_OUT_OF_RANGE (-4)     /* post, withdraw: the number is out of range; report, voucher: the price is */
#define CARRIER_RATE_RANGE (-14)      /* post: the rate is out of range */
#define CARRIER_BASE_RANGE (-15)      /* post: the base is out of range */
#define CARRIER_LOAD_RANGE (-16)      /* query, report: the load is out of range */
#define CARRIER_NUMBER_LIVE (-5)      /* post: a live offer has that number */
#define CARRIER_FULL (-7)             /* post: as many offers are live as the capacity tells */
#define CARRIER_NOT_LIVE (-8)         /* withdraw: no live offer has that number */
#define CARRIER_NOTHING_TO_TAKE_BACK (-17) /* take_back: no update is remembered */
#define CARRIER_EMPTY (-9)            /* query, mark, meet: no offer is live */
#define CARRIER_OUTPUT_TOO_SHORT (-10) /* listing, report: `out` is shorter than three words a piece or an offer */
#define CARRIER_RATES_NOT_APART (-12)  /* meet: some rate of the first book is not above some rate of the second */
#define CARRIER_NO_SUCH_MARK (-13)     /* mark: the index is not in 0 to m, for m pieces */
#define CARRIER_ARRAY_TOO_SHORT (-100) /* an array has fewer words than listed above, but for `out`; tried before all others */

/* Opens an empty book at `start`, with nothing to take back, whatever the words there were. Returns 0. */
int64_t carrier_open(int64_t *table, size_t words, size_t start, int64_t capacity);

/* Posts an offer. Returns the live count after it. Writes how many pairs of envelopes were searched for their meeting (k), the
 * searches' steps in all (s) and the sum of the heights of the trees searched (H) to counts[0], counts[1] and counts[2]: three times 0
 * where the first offer of its rate stays. */
int64_t carrier_post(int64_t *table, size_t words, size_t start, int64_t number, int64_t rate, int64_t base,
                     int64_t *counts, size_t counts_words);

/* Withdraws the live offer with that number. Returns the live count after it, and counts as carrier_post does. */
int64_t carrier_withdraw(int64_t *table, size_t words, size_t start, int64_t number, int64_t *counts, size_t counts_words);

/* Undoes the last accepted post or withdrawal that has not itself been undone. Up to 256 of them are remembered; with one more the oldest is
 * forgotten for good. A take-back is not remembered. Returns the live count after it, and counts as carrier_post does. */
int64_t carrier_take_back(int64_t *table, size_t words, size_t start, int64_t *counts, size_t counts_words);

/* Returns the number of the cheapest live offer at a load; of several, the one with the lowest rate. Writes its price to found[0],
 * to found[1] the number of the second offer: the one with the highest rate at that price, the same where all have one rate; and to
 * found[2] the probes: how deep the first one's piece lies in the tree of pieces. Of several offers with one rate and one base the
 * lowest number is named. */
int64_t carrier_query(const int64_t *table, size_t words, size_t start, int64_t load, int64_t *found, size_t found_words);

/* Lists of each rate the first offer in order, where at some rational load it is strictly cheaper than every offer of another rate, by
 * falling rate. Returns their count.
 * Writes three words a piece from out[0] on: the offer's number, and the numerator and denominator, unreduced, of the load at which
 * the next piece begins; 0 and 0 for the last piece. Later words stay. */
int64_t carrier_listing(const int64_t *table, size_t words, size_t start, int64_t *out, size_t out_words);

/* Reports every live offer whose price at a load is strictly below `price` (-101,000,000,000 to 101,000,000,000 cents), also those that
 * a listing leaves out, by falling rate, then rising base, then rising number. Returns their count: 0 where the book is empty.
 * Writes three words an offer from out[0] on: its number, its rate and its base. Later words stay; three words for each live offer are
 * always enough. The causes, in order: CARRIER_NO_BOOK, CARRIER_OUT_OF_RANGE for the price, CARRIER_LOAD_RANGE, CARRIER_OUTPUT_TOO_SHORT.
 * The table is only read. The work goes with log n + m * (log n)^2, for m offers reported of n that are live; where there are
 * any, 32 KB of the stack are cleared besides. */
int64_t carrier_report(const int64_t *table, size_t words, size_t start, int64_t load, int64_t price, int64_t *out, size_t out_words);

/* Returns 1 where the words from `start` on are a book in every particular, with every envelope right and a memory that can be undone, and 0 where
 * they are not.
 * It reads the whole part: meant for tables that come from elsewhere. */
int64_t carrier_check(const int64_t *table, size_t words, size_t start);

/* The meeting of two books, every rate of the first above every rate of the second: their envelope together is the first's pieces up
 * to u and the second's from v. Returns u's offer. Writes v's offer, the steps of the search, and the heights of the first and of the
 * second tree of pieces to met[0] to met[3]. The two tables may be one. */
int64_t carrier_meet(const int64_t *first, size_t first_words, size_t first_start, const int64_t *second, size_t second_words,
                     size_t second_start, int64_t *met, size_t met_words);

/* What carrier_mark returns. */
#define CARRIER_OPEN_END 0
#define CARRIER_CROSSING 1

/* Chart mark `index` of a listing of m pieces, 0 to m. Returns CARRIER_OPEN_END for the marks 0 and m, and writes the rate of the first
 * or the last piece to mark[0]. Returns CARRIER_CROSSING for a mark i between, and writes the load and the price at which the pieces
 * i and i + 1, counted from 1, cross to mark[0] and mark[1]: each a quotient of two exact doubles, rounded once. */
int64_t carrier_mark(const int64_t *table, size_t words, size_t start, int64_t index, double *mark, size_t mark_words);

/* A price (-101,000,000,000 to 101,000,000,000 cents) in whole units of 100 cents: the nearest, and an exact half to the even unit.
 * Returns 0, and writes the units to units[0]. */
int64_t carrier_voucher(int64_t price, int64_t *units, size_t units_words);

/* A reading hands out the pieces one at a time, as carrier_listing writes them:
 *
 *     int64_t piece[CARRIER_PIECE_WORDS];
 *     int64_t place = carrier_begin(table, words, start);
 *     while (place > 0) {
 *         place = carrier_piece(table, words, start, place, piece, CARRIER_PIECE_WORDS);
 *         .. piece[0], piece[1] and piece[2] are the next piece ..
 *     }
 *
 * carrier_begin returns the place of the first piece, and 0 where there is none. carrier_piece writes the three words of the piece at
 * a place and returns the place of the next, 0 past the last; at 0, below 0 and above 2^32 - 1 it writes nothing. At another number that
 * no call gave, the words written and the answer are free. A place means something for the table as it was when the place was given.
 * On words that are no book a reading may go on without end. */
int64_t carrier_begin(const int64_t *table, size_t words, size_t start);
int64_t carrier_piece(const int64_t *table, size_t words, size_t start, int64_t place, int64_t *piece, size_t piece_words);

#ifdef __cplusplus
}
#endif

#endif
