/* A library with the functions that the bench calls and cards of ROW_WORDS words, for tests/versions.rs: it makes cards, and a check
 * gives a sum over what it finds in them as its letter, so that the test sees where this library looks for them. */
#include <stdint.h>
#include <string.h>

uint64_t zilgwern_make(uint8_t *area, uint64_t area_count, uint64_t *cards, uint64_t card_count)
{
    (void)area, (void)area_count;
    memset(cards, 0, card_count * ROW_WORDS * sizeof *cards);
    return 0;
}

uint64_t zilgwern_check(uint8_t *area, uint64_t area_count, uint64_t *cards, uint64_t card_count, uint16_t *lists, uint64_t items,
                        uint64_t *head, uint8_t *memory, uint64_t *letter)
{
    (void)area, (void)area_count, (void)lists, (void)items, (void)head, (void)memory;
    *letter = 0;
    for (uint64_t word = 0; word < card_count * ROW_WORDS; word++) {
        *letter = 31 * *letter + cards[word];
    }
    return 5;
}

uint64_t zilgwern_run(void)
{
    return 1;
}
