/*
 * zilgwern.h: the van's survey store, an ordered key-value store over memory that the caller lends.
 *
 * For recorders written in C or C++ that link target/staticlib/libstore.a (written by `tools/staticlib`).
 *
 * The library keeps nothing of its own between calls, allocates nothing and opens no files; it calls memcpy, memmove and memset. A
 * store is the five pieces of memory below and nothing else: to copy a store, copy them; to keep one while the van is switched
 * off, keep the area and the bytes that zilgwern_save writes. Any contents are taken: what is no sound store is refused by
 * number, and a refused call changes nothing.
 *
 * Who calls must see to four things, which the library can't check:
 *   - every pointer is good for as many elements as its count says, and aligned as its type is;
 *   - the buffers of one call do not overlap;
 *   - no two calls on the same memory run at the same time;
 *   - as much stack is left as "Stack" below says.
 * Pointers may not be null, also where the count is 0.
 *
 * Numbers in memory are those of the machine (x86-64: little-endian). Numbers in tables, requests and replies are always
 * little-endian, whatever the machine.
 */
#ifndef ZILGWERN_H
#define ZILGWERN_H

#include <stddef.h>
#include <stdint.h>

#ifdef __cplusplus
#define ZILGWERN_STATIC_ASSERT(condition, words) static_assert(condition, words)
extern "C" {
#else
#define ZILGWERN_STATIC_ASSERT(condition, words) _Static_assert(condition, words)
#endif

/* ---- Sizes ------------------------------------------------------------------------------------------------------------ */

#define ZILGWERN_PLACE_BYTES 1024  /* bytes of one place; a place holds one table */
#define ZILGWERN_LEAST_PLACES 16   /* a store has P places, P from 16 */
#define ZILGWERN_MOST_PLACES 4096  /* to 4,096 */
#define ZILGWERN_LEVELS 4          /* levels 0 to 3 */
#define ZILGWERN_CARD_LINKS 8      /* links that a card has room for; the threshold is at most this */
#define ZILGWERN_SUMMARY_BYTES 32  /* bytes of a card's summary, 256 bits */
#define ZILGWERN_MEMORY_BYTES 1024 /* bytes of the memory table */
#define ZILGWERN_VALUE_BYTES 51    /* the longest value */
#define ZILGWERN_ENTRY_BYTES (12 + ZILGWERN_VALUE_BYTES) /* the longest entry: length (2), kind (2), key (8), value */
#define ZILGWERN_TABLE_ENTRIES 16  /* the most entries of a table, and of the memory table */
#define ZILGWERN_SCAN_VALUES 16    /* the most values that one scan gives */
#define ZILGWERN_REPLY_BYTES (10 + ZILGWERN_SCAN_VALUES * ZILGWERN_ENTRY_BYTES) /* the longest reply, a scan's */
#define ZILGWERN_LIST_BYTES 65536  /* the longest request list */
#define ZILGWERN_ANSWER_ROOM 1024  /* bytes that must be left in the answer buffer before a request is served */

ZILGWERN_STATIC_ASSERT(8 + ZILGWERN_TABLE_ENTRIES * ZILGWERN_ENTRY_BYTES <= ZILGWERN_PLACE_BYTES, "a full table fits a place");
ZILGWERN_STATIC_ASSERT(ZILGWERN_REPLY_BYTES <= ZILGWERN_ANSWER_ROOM, "every reply fits the room that a run wants for it");

/* Bytes of the area of a store, and items of its four level lists together. */
#define ZILGWERN_AREA_BYTES(places) ((size_t)(places) * ZILGWERN_PLACE_BYTES)
#define ZILGWERN_LIST_ITEMS(places) ((size_t)(places) * ZILGWERN_LEVELS)

/* The length of the longest saved book: what stands before the cards, P cards with all their links, each place in a list, and a
 * full memory table. A buffer of so many bytes is long enough to save any store of P places. */
#define ZILGWERN_SAVED_LINK_BYTES 20
#define ZILGWERN_SAVED_CARD_BYTES (4 + ZILGWERN_CARD_LINKS * ZILGWERN_SAVED_LINK_BYTES)
#define ZILGWERN_SAVED_BYTES(places)                                                                                          \
    (32 + (size_t)(places) * ZILGWERN_SAVED_CARD_BYTES + 2 * ZILGWERN_LEVELS + 2 * (size_t)(places) + 2 +                     \
     ZILGWERN_TABLE_ENTRIES * ZILGWERN_ENTRY_BYTES)

/* ---- Stack ------------------------------------------------------------------------------------------------------------ */

/* Bytes of stack that must be left for a call, whatever the sizes and contents of what is lent. No contract says so: they were
 * measured (differential/tests/stack.rs) and rounded up, since another version of the compiler may lay out frames otherwise. */
#define ZILGWERN_RUN_STACK 81920   /* make, check, run and save */
#define ZILGWERN_OPEN_STACK 131072 /* open: what it reads of the book, but for cards, is there until it is judged */

/* ---- Lent memory ------------------------------------------------------------------------------------------------------ */

/* A link: the keys from low to high, both included, of a frozen place's table belong to the live table that has the link. */
typedef struct zilgwern_link {
    uint64_t place;
    uint64_t low;
    uint64_t high;
    uint64_t number; /* of the place's entries in the range: all of them, delete marks and those that a newer one hides too */
} zilgwern_link;

/* What a card says of its place. */
enum { ZILGWERN_FREE = 0, ZILGWERN_LIVE = 1, ZILGWERN_FROZEN = 2 };

/*
 * The card of a place. Links stand oldest first; words beyond link_count links are zero.
 *
 * The summary of a live or frozen card has three bits set for each key of the place's table, those of delete marks too: with the
 * key's bytes b0 to b7, lowest first, bit b0 xor b1 xor .. xor b7, bit b0 + b1 + .. + b7 and bit 1 b0 + 2 b1 + .. + 8 b7, the sums
 * modulo 256. They may coincide. Bit n is bit n % 8 of byte n / 8. All other bits are 0, and all of a free card. A look-up opens no
 * table that lacks one of the three bits of its key. The library keeps the bits; a wrong one is refused by 5, with C on a live or
 * frozen card and with G on a free one.
 */
typedef struct zilgwern_card {
    uint64_t state;
    uint64_t link_count;
    zilgwern_link links[ZILGWERN_CARD_LINKS];
    uint8_t summary[ZILGWERN_SUMMARY_BYTES];
} zilgwern_card;

ZILGWERN_STATIC_ASSERT(sizeof(zilgwern_card) == 304, "a card is 38 words of 64 bits");
ZILGWERN_STATIC_ASSERT(offsetof(zilgwern_card, summary) == 272, "the summary is the last four words of a card");

/* A mark: the key after which tidy goes on choosing in a level. flag is 1 if there is a key; else both are 0. */
typedef struct zilgwern_mark {
    uint64_t flag;
    uint64_t key;
} zilgwern_mark;

/* The head of the book. */
typedef struct zilgwern_head {
    uint64_t threshold;                    /* 1 to 8: so many links make a merge due, or fewer whose numbers add up to at
                                              least the entries of their table */
    uint64_t cursor;                       /* the place from which the next free one is looked for */
    zilgwern_mark marks[2];                /* of level 1 and of level 2 */
    uint64_t lengths[ZILGWERN_LEVELS];     /* live tables on levels 0 to 3 */
} zilgwern_head;

ZILGWERN_STATIC_ASSERT(sizeof(zilgwern_head) == 80, "the head is 10 words of 64 bits");

/*
 * The five pieces, for P places:
 *
 *   area     ZILGWERN_AREA_BYTES(P) bytes   the places; place n starts at byte 1024 n
 *   cards    P cards                        card n is that of place n
 *   lists    ZILGWERN_LIST_ITEMS(P) items   four lists of P places; that of level n starts at item n * P. Level 0 is ordered
 *                                           oldest first, levels 1 to 3 by key. Items beyond a list's length are zero
 *   head     one
 *   memory   1,024 bytes                    the memory table: what was put and deleted since the last flush
 */

/* ---- Numbers ---------------------------------------------------------------------------------------------------------- */

/* What a call returns. Where several apply, the lowest comes; but save looks at 1, 5, 3 in turn, and open at 1, 21, 22, 5. */
enum {
    ZILGWERN_ACCEPTED = 0,
    ZILGWERN_WRONG_SIZES = 1,      /* area not 16 to 4,096 whole places, or not P cards, or not 4 P list items; open: or not as
                                      many working cards as cards */
    ZILGWERN_WRONG_THRESHOLD = 2,  /* make: threshold outside 1 to 8 */
    ZILGWERN_SHORT_ANSWER = 3,     /* run: answer buffer under 1,024 bytes; save: buffer shorter than the saved book */
    ZILGWERN_BROKEN_LIST = 4,      /* run: list over 65,536 bytes, a length below 4, or lengths not ending at the list's end */
    ZILGWERN_NOT_SOUND = 5,        /* check, run, save: the store is not sound; open: the store as opened is not. The letter is
                                      that of the first broken rule */
    ZILGWERN_NOT_A_BOOK = 21,      /* open: the bytes are not those of a saved book */
    ZILGWERN_FEWER_PLACES = 22     /* open: the area has fewer places than the saved book names */
};

/*
 * The letter that comes with 5: that of the first broken rule in the order A to G, in ASCII. The rules before it are kept,
 * those behind it may be broken or not: mend it and check again. With every other number it is 0.
 */
enum {
    ZILGWERN_RULE_A = 'A', /* threshold 1 to 8, cursor below P */
    ZILGWERN_RULE_B = 'B', /* each place is free or frozen and in no list, or live and in one list once; only live cards link */
    ZILGWERN_RULE_C = 'C', /* live and frozen places hold tables, and their cards' summaries are those of the tables' keys */
    ZILGWERN_RULE_D = 'D', /* the memory table is one, with 0 to 16 entries */
    ZILGWERN_RULE_E = 'E', /* links: on levels 1 to 3, at most the threshold, ranges and numbers good, on frozen places, sharing
                              no key */
    ZILGWERN_RULE_F = 'F', /* a place is frozen exactly if a link names it */
    ZILGWERN_RULE_G = 'G'  /* tables of levels 1 to 3 lie apart and rise; parts of the book not in use are zero, free cards'
                              summaries too */
};

/* Kinds of requests. */
enum {
    ZILGWERN_PUT = 1,     /* key (8), value (0 to ZILGWERN_VALUE_BYTES) */
    ZILGWERN_DELETE = 2,  /* key (8); leaves a delete mark, which a merge drops where nothing below can be under its key */
    ZILGWERN_LOOK_UP = 3, /* key (8); the reply's body is the value */
    ZILGWERN_SCAN = 4,    /* low key (8), high key (8), both included; count (2), more (2), then so many entries */
    ZILGWERN_FLUSH = 5,   /* none: writes the memory table to a place and empties it */
    ZILGWERN_TIDY = 6,    /* none: does one step of compaction; step (2), level (2) */
    ZILGWERN_REPORT = 7,  /* none; eight counts (2 each): free, live on levels 0 to 3, frozen, links, memory entries */
    ZILGWERN_PROBE = 8    /* key (8); found (2: 1 exactly if a look-up gives a value, else 0), tables that a look-up opens (2), bits
                             set in their summaries, added up (4), then the value if found */
};

/* Results in replies. All but 0 come without a body; 16 to 20 leave the store as it was, and the run goes on. */
enum {
    ZILGWERN_DONE = 0,
    ZILGWERN_UNKNOWN_KIND = 16,  /* a kind outside 1 to 8 */
    ZILGWERN_WRONG_BODY = 17,    /* body length wrong for the kind */
    ZILGWERN_MEMORY_FULL = 18,   /* put or delete of a key that the memory table lacks, and it holds 16: flush first */
    ZILGWERN_WRONG_RANGE = 19,   /* scan with low above high */
    ZILGWERN_NO_PLACE = 20,      /* fewer free places than the flush or the due merge writes */
    ZILGWERN_NO_VALUE = 64,      /* look up: no value under this key; a probe says so by found */
    ZILGWERN_NOTHING_TO_DO = 65  /* flush of an empty memory table; tidy with no merge due and no level above its capacity */
};

/*
 * Steps in the reply of a tidy. A merge writes a table anew with what its links hold, the newest entry of each key. It drops a
 * delete mark exactly if no table on a level of greater number has a span that holds its key; a span goes from the least to the
 * greatest of a table's own keys and its links' range ends. What is left may be nothing: then no table takes the old one's place.
 */
enum { ZILGWERN_MOVED = 1, ZILGWERN_LINKED = 2, ZILGWERN_MERGED = 3 };

/*
 * The tables that a look-up opens, as a probe counts them. After memory, which is not counted, it asks the tables of level 0, newest
 * first; then on each of levels 1 to 3 the one whose span holds the key, if there is one: the frozen tables of those of its links
 * whose range holds the key, newest first, then the table itself. It opens those whose summary has the three bits of the key, up to
 * the one with an entry under it, a value or a delete mark, which decides; that one counts, too. They are at most as many as level 0
 * has tables and 3 (T + 1), T the threshold. A probe changes nothing.
 */

/*
 * Request: length of the whole (2), kind (2), body. A list is requests one behind the other.
 * Reply: length of the whole (2), the request's kind (2), result (2), body.
 * Entry, in the reply of a scan: length of the whole (2), 1 (2), key (8), value.
 */

/* What a run gives back beside its number. All 0 but for the letter where the run is refused. */
typedef struct zilgwern_outcome {
    uint64_t letter;  /* of the first broken rule where the number is 5, else 0 */
    uint64_t served;  /* requests served, refused ones included */
    uint64_t written; /* bytes of the answer buffer that were written; those beyond are untouched */
} zilgwern_outcome;

ZILGWERN_STATIC_ASSERT(sizeof(zilgwern_outcome) == 24, "the outcome is 3 words of 64 bits");

/*
 * A saved book: length of the whole (4), kind 48 (2), P, threshold, cursor (2 each); of levels 1 and 2 the mark's flag (2: 0 or
 * 1) and key (8: 0 if none); of each card the state (2), the link count (2), and of each link place (2), low (8), high (8),
 * number (2); the four lists and the memory entries, each after its count (2). Items have 2 bytes, entries the form above, with
 * 1 or 2 (a delete mark). docs/FORMATS.md has an example. The area's bytes are not in it, and the summaries are not either.
 */

/* What saving gives back beside its number. */
typedef struct zilgwern_saved {
    uint64_t letter; /* of the first broken rule where the number is 5, else 0 */
    uint64_t length; /* of the saved book; 0 if refused */
} zilgwern_saved;

ZILGWERN_STATIC_ASSERT(sizeof(zilgwern_saved) == 16, "what saving gives back is 2 words of 64 bits");

/* ---- Calls ------------------------------------------------------------------------------------------------------------ */

/* Makes a new store in memory of any contents; the area's bytes stay as found. Gives 0, 1 or 2. */
uint64_t zilgwern_make(uint8_t *area, size_t area_bytes, zilgwern_card *cards, size_t card_count, uint16_t *lists,
                       size_t item_count, zilgwern_head *head, uint8_t *memory, uint64_t threshold);

/* Checks whatever is lent and changes nothing but *letter: that of the first broken rule with 5, else 0. Gives 0, 1 or 5. */
uint64_t zilgwern_check(const uint8_t *area, size_t area_bytes, const zilgwern_card *cards, size_t card_count,
                        const uint16_t *lists, size_t item_count, const zilgwern_head *head, const uint8_t *memory,
                        uint64_t *letter);

/*
 * Checks the store once, then serves the requests in order and writes their replies to the front of the answer buffer.
 * Stops before a request when fewer than 1,024 bytes of the buffer remain: run the rest of the list again after that.
 * Gives 0, 1, 3, 4 or 5.
 */
uint64_t zilgwern_run(uint8_t *area, size_t area_bytes, zilgwern_card *cards, size_t card_count, uint16_t *lists,
                      size_t item_count, zilgwern_head *head, uint8_t *memory, const uint8_t *requests,
                      size_t request_bytes, uint8_t *answer, size_t answer_bytes, zilgwern_outcome *outcome);

/*
 * Writes the book as bytes to the front of the buffer; those of the buffer beyond *saved's length are untouched, and all of them
 * where it is refused. The store is not changed. To keep a store, keep the area beside these bytes, both of one moment.
 * Gives 0, 1, 5 or 3.
 */
uint64_t zilgwern_save(const uint8_t *area, size_t area_bytes, const zilgwern_card *cards, size_t card_count,
                       const uint16_t *lists, size_t item_count, const zilgwern_head *head, const uint8_t *memory,
                       uint8_t *buffer, size_t buffer_bytes, zilgwern_saved *saved);

/*
 * Opens a saved book over an area, which is only read: cards, lists, head and memory become the store's, whatever they held.
 * The area has as many places as the book names, or more: the added ones are free, so a store that ran short of places goes on.
 * Its other places must hold the bytes of the moment of saving: an area of another moment is refused only where it breaks a rule.
 * The summaries are worked out from the area: that of a live or frozen card from the table in its place, zero if there is none.
 * As many working cards as cards are wanted; with 0 and 5 they hold the cards of the store as opened, else they stay. *letter
 * is that of the first broken rule of the store as opened with 5, else 0. Gives 0, 1, 21, 22 or 5.
 */
uint64_t zilgwern_open(const uint8_t *area, size_t area_bytes, zilgwern_card *cards, size_t card_count, uint16_t *lists,
                       size_t item_count, zilgwern_head *head, uint8_t *memory, const uint8_t *book, size_t book_bytes,
                       zilgwern_card *working, size_t working_count, uint64_t *letter);

#ifdef __cplusplus
}
#endif

#endif
