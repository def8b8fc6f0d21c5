/* The header and the archive from C: the requirements' sample book, its refusals and its words. Ends with status 0 where all holds. */
#include "carrier_book.h"

#include <stdio.h>
#include <stdlib.h>
#include <string.h>

#define START 5
#define CAPACITY 3
#define WORDS (START + CARRIER_WORDS(CAPACITY) + 5)

static int64_t table[WORDS];

/* a second book, of lower rates */
static int64_t second[CARRIER_WORDS(1)];

#define EXPECT(claim)                                                        \
    do {                                                                     \
        if (!(claim)) {                                                      \
            fprintf(stderr, "book.c:%d: %s does not hold\n", __LINE__, #claim); \
            exit(1);                                                         \
        }                                                                    \
    } while (0)

static int64_t post(int64_t number, int64_t rate, int64_t base) {
    int64_t counts[CARRIER_COUNTS_WORDS];
    return carrier_post(table, WORDS, START, number, rate, base, counts, CARRIER_COUNTS_WORDS);
}

static int64_t withdraw(int64_t number) {
    int64_t counts[CARRIER_COUNTS_WORDS];
    return carrier_withdraw(table, WORDS, START, number, counts, CARRIER_COUNTS_WORDS);
}

static int64_t take_back(void) {
    int64_t counts[CARRIER_COUNTS_WORDS];
    return carrier_take_back(table, WORDS, START, counts, CARRIER_COUNTS_WORDS);
}

/* the offer named first, its price, and the second offer */
static int64_t query(int64_t load, int64_t *price, int64_t *other) {
    int64_t found[CARRIER_FOUND_WORDS] = {0, 0, 0};
    int64_t number = carrier_query(table, WORDS, START, load, found, CARRIER_FOUND_WORDS);
    *price = found[0];
    *other = found[1];
    return number;
}

/* the reading hands out what the listing writes */
static void reading(const int64_t *pieces, size_t count) {
    int64_t piece[CARRIER_PIECE_WORDS];
    int64_t place = carrier_begin(table, WORDS, START);
    size_t i;
    for (i = 0; i < count; i++) {
        EXPECT(place > 0);
        place = carrier_piece(table, WORDS, START, place, piece, CARRIER_PIECE_WORDS);
        EXPECT(memcmp(piece, pieces + CARRIER_PIECE_WORDS * i, sizeof piece) == 0);
    }
    EXPECT(place == 0);
    EXPECT(carrier_piece(table, WORDS, START, 0, piece, CARRIER_PIECE_WORDS) == 0);
    EXPECT(carrier_begin(table, WORDS, WORDS + 1) == CARRIER_NO_BOOK);
    EXPECT(carrier_piece(table, WORDS, START, 1, piece, 2) == CARRIER_ARRAY_TOO_SHORT);
}

/* of the offers (3, 0), (1, 10) and (0, 40), which cost 15, 15 and 40 at load 5: an offer at the price itself is not below it */
static void reports(void) {
    static const int64_t offers[9] = {1, 3, 0, 2, 1, 10, 3, 0, 40};
    int64_t out[10] = {-7, -7, -7, -7, -7, -7, -7, -7, -7, -7};
    const int64_t most = INT64_C(101000000000);
    EXPECT(carrier_report(table, WORDS, WORDS + 1, 1000001, most + 1, out, 10) == CARRIER_NO_BOOK);
    EXPECT(carrier_report(table, WORDS, START, 1000001, most + 1, out, 10) == CARRIER_OUT_OF_RANGE);
    EXPECT(carrier_report(table, WORDS, START, 0, -most - 1, out, 10) == CARRIER_OUT_OF_RANGE);
    EXPECT(carrier_report(table, WORDS, START, 1000001, most, out, 0) == CARRIER_LOAD_RANGE);
    EXPECT(carrier_report(table, WORDS, START, 5, most, out, 8) == CARRIER_OUTPUT_TOO_SHORT);
    EXPECT(carrier_report(table, WORDS, START, 5, 16, out, 5) == CARRIER_OUTPUT_TOO_SHORT);
    EXPECT(carrier_report(table, WORDS, START, 5, 15, out, 0) == 0);
    EXPECT(out[0] == -7 && out[8] == -7);
    EXPECT(carrier_report(table, WORDS, START, 5, 16, out, 6) == 2);
    EXPECT(memcmp(out, offers, 6 * sizeof *offers) == 0 && out[6] == -7);
    EXPECT(carrier_report(table, WORDS, START, 5, most, out, 10) == 3);
    EXPECT(memcmp(out, offers, sizeof offers) == 0 && out[9] == -7);
}

/* of the pieces (3, 0), (1, 10) and (0, 40) */
static void marks(void) {
    double mark[CARRIER_MARK_WORDS] = {7, 7};
    EXPECT(carrier_mark(table, WORDS, START, 0, mark, 2) == CARRIER_OPEN_END && mark[0] == 3 && mark[1] == 7);
    EXPECT(carrier_mark(table, WORDS, START, 1, mark, 2) == CARRIER_CROSSING && mark[0] == 5 && mark[1] == 15);
    EXPECT(carrier_mark(table, WORDS, START, 2, mark, 2) == CARRIER_CROSSING && mark[0] == 30 && mark[1] == 40);
    EXPECT(carrier_mark(table, WORDS, START, 3, mark, 2) == CARRIER_OPEN_END && mark[0] == 0);
    EXPECT(carrier_mark(table, WORDS, START, 4, mark, 2) == CARRIER_NO_SUCH_MARK);
    EXPECT(carrier_mark(table, WORDS, START, 1, mark, 1) == CARRIER_ARRAY_TOO_SHORT);
    EXPECT(mark[0] == 0 && mark[1] == 40);
}

/* with a book that has the offer 8 at the rate -1 and the base 100: it takes over from offer 3 */
static void meeting(void) {
    int64_t counts[CARRIER_COUNTS_WORDS];
    int64_t met[CARRIER_MET_WORDS];
    size_t words = CARRIER_WORDS(1);
    EXPECT(carrier_open(second, words, 0, 1) == 0);
    EXPECT(carrier_meet(table, WORDS, START, second, words, 0, met, CARRIER_MET_WORDS) == CARRIER_EMPTY);
    EXPECT(carrier_post(second, words, 0, 8, -1, 100, counts, CARRIER_COUNTS_WORDS) == 1);
    EXPECT(carrier_meet(table, WORDS, START, second, words, 0, met, CARRIER_MET_WORDS) == 3);
    EXPECT(met[0] == 8 && met[1] >= 1 && met[1] <= 3 * (met[2] + met[3]) + 1 && met[2] == 2 && met[3] == 0);
    EXPECT(carrier_meet(second, words, 0, table, WORDS, START, met, CARRIER_MET_WORDS) == CARRIER_RATES_NOT_APART);
    EXPECT(carrier_meet(table, WORDS, START, second, words, 0, met, 3) == CARRIER_ARRAY_TOO_SHORT);
}

static void vouchers(void) {
    int64_t units[2] = {0, -77};
    EXPECT(carrier_voucher(149, units, CARRIER_UNITS_WORDS) == 0 && units[0] == 1);
    EXPECT(carrier_voucher(50, units, CARRIER_UNITS_WORDS) == 0 && units[0] == 0);
    EXPECT(carrier_voucher(150, units, CARRIER_UNITS_WORDS) == 0 && units[0] == 2);
    EXPECT(carrier_voucher(250, units, CARRIER_UNITS_WORDS) == 0 && units[0] == 2);
    EXPECT(carrier_voucher(-250, units, CARRIER_UNITS_WORDS) == 0 && units[0] == -2);
    EXPECT(carrier_voucher(-150, units, 2) == 0 && units[0] == -2 && units[1] == -77);
    EXPECT(carrier_voucher(INT64_MAX, units, 2) == CARRIER_OUT_OF_RANGE && units[0] == -2);
    EXPECT(carrier_voucher(150, units, 0) == CARRIER_ARRAY_TOO_SHORT && units[0] == -2);
}

/* with the offers (1, 10) and (0, 40): one more at the rate 1, behind the first of that rate, then one ahead of it */
static void one_rate(void) {
    int64_t counts[CARRIER_COUNTS_WORDS] = {7, 7, 7};
    int64_t price, other;
    EXPECT(carrier_post(table, WORDS, START, 4, 1, 10, counts, CARRIER_COUNTS_WORDS) == 3);
    EXPECT(counts[0] == 0 && counts[1] == 0 && counts[2] == 0);
    EXPECT(query(5, &price, &other) == 2 && price == 15 && other == 2);
    EXPECT(withdraw(4) == 2);
    EXPECT(post(4, 1, 9) == 3);
    EXPECT(query(5, &price, &other) == 4 && price == 14 && other == 4);
    EXPECT(withdraw(4) == 2);
    EXPECT(query(5, &price, &other) == 2 && price == 15 && other == 2);
}

/* offer 1, withdrawn last, comes back; then offer 3, posted before that, goes. Both are undone by calls of their own. */
static void slip_of_the_thumb(void) {
    int64_t counts[CARRIER_COUNTS_WORDS + 1] = {7, 7, 7, -77};
    int64_t price, other;
    EXPECT(carrier_take_back(table, WORDS, START, counts, CARRIER_COUNTS_WORDS + 1) == 3);
    EXPECT(counts[0] >= 1 && counts[1] <= 3 * counts[2] + counts[0] && counts[3] == -77);
    EXPECT(query(5, &price, &other) == 2 && price == 15 && other == 1);
    EXPECT(take_back() == 2);
    EXPECT(query(31, &price, &other) == 2 && price == 41 && other == 2);
    EXPECT(post(3, 0, 40) == 3);
    EXPECT(withdraw(1) == 2);
}

/* the second book had one post */
static void nothing_left(void) {
    int64_t counts[CARRIER_COUNTS_WORDS] = {7, 7, 7};
    size_t words = CARRIER_WORDS(1);
    EXPECT(carrier_take_back(second, words, 0, counts, CARRIER_COUNTS_WORDS) == 0);
    EXPECT(counts[0] == 0 && counts[1] == 0 && counts[2] == 0);
    counts[0] = 7;
    EXPECT(carrier_take_back(second, words, 0, counts, CARRIER_COUNTS_WORDS) == CARRIER_NOTHING_TO_TAKE_BACK);
    EXPECT(counts[0] == 7 && counts[1] == 0 && counts[2] == 0);
}

static void edges_are_kept(void) {
    size_t i;
    for (i = 0; i < START; i++) {
        EXPECT(table[i] == -77 && table[WORDS - 1 - i] == -77);
    }
}

static void refusals(void) {
    int64_t few[3] = {0, 0, 0};
    EXPECT(carrier_open(table, WORDS, START, 4097) == CARRIER_CAPACITY);
    EXPECT(carrier_open(table, WORDS, START, CAPACITY + 1) == CARRIER_NO_ROOM);
    EXPECT(carrier_listing(table, WORDS, WORDS + 1, few, 3) == CARRIER_NO_BOOK);
    EXPECT(carrier_take_back(table, WORDS, WORDS + 1, few, 3) == CARRIER_NO_BOOK);
    EXPECT(post(0, 100001, INT64_MAX) == CARRIER_OUT_OF_RANGE && withdraw(10000) == CARRIER_OUT_OF_RANGE);
    EXPECT(post(1, 100001, INT64_MAX) == CARRIER_RATE_RANGE && post(1, INT64_MIN, 9) == CARRIER_RATE_RANGE);
    EXPECT(post(1, 3, -1000000001) == CARRIER_BASE_RANGE);
    EXPECT(carrier_query(table, WORDS, START, 1000001, few, 3) == CARRIER_LOAD_RANGE);
    EXPECT(post(1, 9, 9) == CARRIER_NUMBER_LIVE);
    EXPECT(post(9, 9, 9) == CARRIER_FULL);
    EXPECT(withdraw(9) == CARRIER_NOT_LIVE);
    EXPECT(carrier_listing(table, WORDS, START, few, 3) == CARRIER_OUTPUT_TOO_SHORT);
    EXPECT(carrier_post(table, WORDS, START, 9, 9, 9, few, 2) == CARRIER_ARRAY_TOO_SHORT);
    EXPECT(carrier_take_back(table, WORDS, START, few, 2) == CARRIER_ARRAY_TOO_SHORT);
    EXPECT(carrier_query(table, WORDS, START, 0, few, 2) == CARRIER_ARRAY_TOO_SHORT);
    EXPECT(few[0] == 0 && few[1] == 0 && few[2] == 0);
}

int main(void) {
    static const int64_t pieces[9] = {1, 10, 2, 2, 30, 1, 3, 0, 0};
    int64_t out[CARRIER_PIECE_WORDS * CAPACITY];
    int64_t price, other;
    size_t i;
    for (i = 0; i < WORDS; i++) {
        table[i] = -77;
    }
    EXPECT(CARRIER_WORDS(1) == 1152 && CARRIER_WORDS(64) == 5184);
    EXPECT(carrier_open(table, WORDS, START, CAPACITY) == 0);
    EXPECT(query(5, &price, &other) == CARRIER_EMPTY);
    EXPECT(carrier_report(table, WORDS, START, 5, 100, out, 0) == 0);
    EXPECT(post(1, 3, 0) == 1);
    EXPECT(post(2, 1, 10) == 2);
    EXPECT(post(3, 0, 40) == 3);
    EXPECT(query(5, &price, &other) == 2 && price == 15 && other == 1);
    EXPECT(query(31, &price, &other) == 3 && price == 40 && other == 3);
    EXPECT(carrier_listing(table, WORDS, START, out, 9) == 3);
    EXPECT(memcmp(out, pieces, sizeof pieces) == 0);
    reading(pieces, 3);
    reports();
    marks();
    meeting();
    vouchers();
    refusals();
    EXPECT(withdraw(1) == 2);
    EXPECT(query(5, &price, &other) == 2 && price == 15 && other == 2);
    slip_of_the_thumb();
    nothing_left();
    one_rate();
    EXPECT(carrier_check(table, WORDS, START) == 1);
    table[START + 3]++;
    EXPECT(carrier_check(table, WORDS, START) == 0);
    EXPECT(carrier_check(table, WORDS, WORDS + 1) == 0);
    edges_are_kept();
    puts("book.c: all holds");
    return 0;
}
