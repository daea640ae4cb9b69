/*
 * Document 01's example in C: makes a store of 32 places with threshold 4, puts "A" under key 5, looks it up, and prints the
 * answer bytes in hexadecimal. Breaks two rules of a sound store, and prints number and letter of a check before each is mended
 * and at the end. Then saves the store, opens it over an area of twice the places, and looks the key up there. A value is deleted,
 * and tidied away with its delete mark. Last, probes say which tables a look-up opens, and wrong summary bits are refused.
 */
#include "zilgwern.h"

#include <stdio.h>
#include <string.h>

enum { PLACES = 32, THRESHOLD = 4, MORE_PLACES = 2 * PLACES };

/* The lent memory. Static, since a large store is too much for a stack. */
static uint8_t area[ZILGWERN_AREA_BYTES(PLACES)];
static zilgwern_card cards[PLACES];
static uint16_t lists[ZILGWERN_LIST_ITEMS(PLACES)];
static zilgwern_head head;
static uint8_t memory[ZILGWERN_MEMORY_BYTES];

/* The memory of the larger store that the saved one goes on in, and the cards that opening works on. */
static uint8_t more_area[ZILGWERN_AREA_BYTES(MORE_PLACES)];
static zilgwern_card more_cards[MORE_PLACES], working[MORE_PLACES];
static uint16_t more_lists[ZILGWERN_LIST_ITEMS(MORE_PLACES)];
static zilgwern_head more_head;
static uint8_t more_memory[ZILGWERN_MEMORY_BYTES];

static const uint8_t requests[] = {
    13, 0, ZILGWERN_PUT, 0, 5, 0, 0, 0, 0, 0, 0, 0, 'A',  /* put "A" under key 5 */
    12, 0, ZILGWERN_LOOK_UP, 0, 5, 0, 0, 0, 0, 0, 0, 0,   /* look up key 5 */
};

/* A value and its delete mark, in tables of their own, and two more tables to push them down; then a report, tidies, a report. */
static const uint8_t deletes[] = {
    13, 0, ZILGWERN_PUT, 0, 7, 0, 0, 0, 0, 0, 0, 0, 'A', 4, 0, ZILGWERN_FLUSH, 0,
    12, 0, ZILGWERN_DELETE, 0, 7, 0, 0, 0, 0, 0, 0, 0, 4, 0, ZILGWERN_FLUSH, 0,
    13, 0, ZILGWERN_PUT, 0, 100, 0, 0, 0, 0, 0, 0, 0, 'B', 4, 0, ZILGWERN_FLUSH, 0,
    13, 0, ZILGWERN_PUT, 0, 101, 0, 0, 0, 0, 0, 0, 0, 'C', 4, 0, ZILGWERN_FLUSH, 0,
    4, 0, ZILGWERN_REPORT, 0,
    4, 0, ZILGWERN_TIDY, 0, 4, 0, ZILGWERN_TIDY, 0, 4, 0, ZILGWERN_TIDY, 0,
    4, 0, ZILGWERN_REPORT, 0,
};

/* Keys 5 and 260 in tables of their own, the newer in place 1; then probes of 5, 260, 6 and 7. The bits of key 5 are all bit 5, those
 * of 260 (bytes 4 and 1) are 5, 5 and 6, those of 6 and 7 bit 6 and bit 7. */
static const uint8_t probes[] = {
    13, 0, ZILGWERN_PUT, 0, 5, 0, 0, 0, 0, 0, 0, 0, 'A', 4, 0, ZILGWERN_FLUSH, 0,
    13, 0, ZILGWERN_PUT, 0, 4, 1, 0, 0, 0, 0, 0, 0, 'B', 4, 0, ZILGWERN_FLUSH, 0,
    12, 0, ZILGWERN_PROBE, 0, 5, 0, 0, 0, 0, 0, 0, 0,
    12, 0, ZILGWERN_PROBE, 0, 4, 1, 0, 0, 0, 0, 0, 0,
    12, 0, ZILGWERN_PROBE, 0, 6, 0, 0, 0, 0, 0, 0, 0,
    12, 0, ZILGWERN_PROBE, 0, 7, 0, 0, 0, 0, 0, 0, 0,
};

/* Prints the number that a check gives, and with 5 the letter. */
static void print_check(void)
{
    uint64_t letter;
    uint64_t number = zilgwern_check(area, sizeof area, cards, PLACES, lists, ZILGWERN_LIST_ITEMS(PLACES), &head, memory,
                                     &letter);
    if (number == ZILGWERN_NOT_SOUND) {
        printf("%llu %c\n", (unsigned long long)number, (int)letter);
    } else {
        printf("%llu\n", (unsigned long long)number);
    }
}

/* The letter is that of the first broken rule, so the second shows once the first is mended. */
static void break_and_mend(void)
{
    const uint8_t kind = memory[2];

    head.threshold = 9; /* rule A */
    memory[2] = 0;      /* rule D: no table is of kind 0 */
    print_check();
    head.threshold = THRESHOLD;
    print_check();
    memory[2] = kind;
    print_check();
}

static void print_bytes(const uint8_t *bytes, uint64_t count)
{
    for (uint64_t byte = 0; byte < count; byte++) {
        printf("%s%02X", byte == 0 ? "" : " ", (unsigned)bytes[byte]);
    }
    printf("\n");
}

/* Prints the length of the saved book and the number that opening gives over the larger area, which holds the places' bytes, and
 * then the look-up's answer there. */
static void save_and_open(void)
{
    static uint8_t book[ZILGWERN_SAVED_BYTES(PLACES)];
    const uint8_t *look_up = requests + 13;
    uint8_t answer[ZILGWERN_ANSWER_ROOM];
    zilgwern_saved saved;
    zilgwern_outcome outcome;
    uint64_t number, letter;

    zilgwern_save(area, sizeof area, cards, PLACES, lists, ZILGWERN_LIST_ITEMS(PLACES), &head, memory, book, sizeof book,
                  &saved);
    memcpy(more_area, area, sizeof area);
    number = zilgwern_open(more_area, sizeof more_area, more_cards, MORE_PLACES, more_lists, ZILGWERN_LIST_ITEMS(MORE_PLACES),
                           &more_head, more_memory, book, (size_t)saved.length, working, MORE_PLACES, &letter);
    printf("%llu bytes, %llu\n", (unsigned long long)saved.length, (unsigned long long)number);
    zilgwern_run(more_area, sizeof more_area, more_cards, MORE_PLACES, more_lists, ZILGWERN_LIST_ITEMS(MORE_PLACES),
                 &more_head, more_memory, look_up, sizeof requests - 13, answer, sizeof answer, &outcome);
    print_bytes(answer, outcome.written);
}

/* Prints the free places before and after the tidies: the value's table is moved down, that of the delete mark is linked to it,
 * and their merge comes to nothing, since no table on a lower level can hold the key. Nine replies come before the tidies', the
 * first eight of 6 bytes. */
static void delete_for_good(void)
{
    enum { REPORT = 8 * 6, REPORT_BYTES = 22, TIDY_BYTES = 10, FREE = 6 };
    const size_t after = REPORT + REPORT_BYTES + 3 * TIDY_BYTES;
    uint8_t answer[2 * ZILGWERN_ANSWER_ROOM];
    zilgwern_outcome outcome;

    zilgwern_make(area, sizeof area, cards, PLACES, lists, ZILGWERN_LIST_ITEMS(PLACES), &head, memory, THRESHOLD);
    zilgwern_run(area, sizeof area, cards, PLACES, lists, ZILGWERN_LIST_ITEMS(PLACES), &head, memory, deletes, sizeof deletes,
                 answer, sizeof answer, &outcome);
    printf("free: %u, then %u\n", (unsigned)answer[REPORT + FREE], (unsigned)answer[after + FREE]);
}

/* The bits set in the summary of a place's card. */
static unsigned bits_set(size_t place)
{
    unsigned count = 0;

    for (size_t bit = 0; bit < 8 * ZILGWERN_SUMMARY_BYTES; bit++) {
        count += cards[place].summary[bit / 8] >> (bit % 8) & 1u;
    }
    return count;
}

/* Prints for each probe what was found, the tables opened and their bits; 0 if these are those of the places that are opened: for key
 * 5 both, the newer in vain, for 260 the newer, for 6 the newer in vain, for 7 none. */
static int probe_keys(void)
{
    static const struct { unsigned found, newer, older; } expected[4] = {{1, 1, 1}, {1, 1, 0}, {0, 1, 0}, {0, 0, 0}};
    uint8_t answer[2 * ZILGWERN_ANSWER_ROOM];
    zilgwern_outcome outcome;
    const uint8_t *reply = answer + 4 * 6; /* behind those of the puts and flushes */

    zilgwern_make(area, sizeof area, cards, PLACES, lists, ZILGWERN_LIST_ITEMS(PLACES), &head, memory, THRESHOLD);
    zilgwern_run(area, sizeof area, cards, PLACES, lists, ZILGWERN_LIST_ITEMS(PLACES), &head, memory, probes, sizeof probes,
                 answer, sizeof answer, &outcome);
    for (size_t at = 0; at < 4; at++) {
        const unsigned found = reply[6], tables = reply[8], bits = reply[10];
        const unsigned newer = expected[at].newer, older = expected[at].older;

        printf("found %u, tables opened %u, bits %u\n", found, tables, bits);
        if (found != expected[at].found || tables != newer + older || bits != newer * bits_set(1) + older * bits_set(0)) {
            return 1;
        }
        reply += reply[0];
    }
    return 0;
}

/* A bit that no key of the table sets, and one of a free card. */
static void break_bits(void)
{
    cards[0].summary[31] = 0x80; /* rule C */
    print_check();
    cards[0].summary[31] = 0;
    cards[9].summary[0] = 1; /* rule G: place 9 is free */
    print_check();
    cards[9].summary[0] = 0;
    print_check();
}

int main(void)
{
    uint8_t answer[2 * ZILGWERN_ANSWER_ROOM];
    zilgwern_outcome outcome;
    uint64_t number = zilgwern_make(area, sizeof area, cards, PLACES, lists, ZILGWERN_LIST_ITEMS(PLACES), &head, memory,
                                    THRESHOLD);
    if (number != ZILGWERN_ACCEPTED) {
        fprintf(stderr, "no store was made: number %llu\n", (unsigned long long)number);
        return 1;
    }
    number = zilgwern_run(area, sizeof area, cards, PLACES, lists, ZILGWERN_LIST_ITEMS(PLACES), &head, memory, requests,
                          sizeof requests, answer, sizeof answer, &outcome);
    if (number != ZILGWERN_ACCEPTED) {
        fprintf(stderr, "the run was refused: number %llu, letter %llu\n", (unsigned long long)number,
                (unsigned long long)outcome.letter);
        return 1;
    }
    print_bytes(answer, outcome.written);
    break_and_mend();
    save_and_open();
    delete_for_good();
    if (probe_keys() != 0) {
        fprintf(stderr, "a probe says other tables or bits than the cards have\n");
        return 1;
    }
    break_bits();
    return 0;
}
