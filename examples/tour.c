/* docs/TOUR.md's program in C: two offers, what they cost, and where they cross. */
#include <carrier_book.h>

#include <stdio.h>

#define CAPACITY 64
#define WORDS CARRIER_WORDS(CAPACITY)

static int64_t table[WORDS];
static int64_t others[CARRIER_WORDS(1)];

int main(void) {
    int64_t counts[CARRIER_COUNTS_WORDS];
    int64_t found[CARRIER_FOUND_WORDS];
    int64_t piece[CARRIER_PIECE_WORDS];
    int64_t offers[2 * CARRIER_OFFER_WORDS];
    int64_t met[CARRIER_MET_WORDS];
    int64_t units[CARRIER_UNITS_WORDS];
    double mark[CARRIER_MARK_WORDS];
    int64_t answer, place, index;
    carrier_open(table, WORDS, 0, CAPACITY);
    carrier_post(table, WORDS, 0, 1, 3, 0, counts, CARRIER_COUNTS_WORDS);
    carrier_post(table, WORDS, 0, 2, 1, 10, counts, CARRIER_COUNTS_WORDS);
    answer = carrier_post(table, WORDS, 0, 3, 100001, 0, counts, CARRIER_COUNTS_WORDS);
    printf("the rate is %s\n", answer == CARRIER_RATE_RANGE ? "out of range" : "in range");
    answer = carrier_query(table, WORDS, 0, 5, found, CARRIER_FOUND_WORDS);
    printf("offer %d at %d cents, and offer %d\n", (int)answer, (int)found[0], (int)found[1]);
    answer = carrier_report(table, WORDS, 0, 4, 14, offers, 2 * CARRIER_OFFER_WORDS);
    for (index = 0; index < answer; index++) {
        printf("offer %d costs less than 14 cents at load 4\n", (int)offers[CARRIER_OFFER_WORDS * index]);
    }
    place = carrier_begin(table, WORDS, 0);
    while (place > 0) {
        place = carrier_piece(table, WORDS, 0, place, piece, CARRIER_PIECE_WORDS);
        printf("offer %d up to %d/%d\n", (int)piece[0], (int)piece[1], (int)piece[2]);
    }
    for (index = 0; (answer = carrier_mark(table, WORDS, 0, index, mark, CARRIER_MARK_WORDS)) >= 0; index++) {
        if (answer == CARRIER_OPEN_END) {
            printf("an open end at the rate %g\n", mark[0]);
        } else {
            printf("a crossing at load %g for %g cents\n", mark[0], mark[1]);
        }
    }
    carrier_open(others, CARRIER_WORDS(1), 0, 1);
    carrier_post(others, CARRIER_WORDS(1), 0, 7, -1, 100, counts, CARRIER_COUNTS_WORDS);
    answer = carrier_meet(table, WORDS, 0, others, CARRIER_WORDS(1), 0, met, CARRIER_MET_WORDS);
    printf("offer %d, and then offer %d of the others\n", (int)answer, (int)met[0]);
    carrier_voucher(150, units, CARRIER_UNITS_WORDS);
    printf("150 cents are %d units\n", (int)units[0]);
    carrier_withdraw(table, WORDS, 0, 1, counts, CARRIER_COUNTS_WORDS);
    printf("then offer %d\n", (int)carrier_query(table, WORDS, 0, 5, found, CARRIER_FOUND_WORDS));
    carrier_take_back(table, WORDS, 0, counts, CARRIER_COUNTS_WORDS);
    printf("offer %d is back\n", (int)carrier_query(table, WORDS, 0, 4, found, CARRIER_FOUND_WORDS));
    printf("the words are %s\n", carrier_check(table, WORDS, 0) ? "a book" : "no book");
    return 0;
}
