/* The row page index for a host that holds its own store: the C functions of crates/host_c, in target/staticlib/libhost.a
   (`tools/build host`); and row_page_script, a whole script in one call, of crates/script_c, in target/staticlib/libscript.a
   (`tools/build script`). docs/HOST.md tells what they mean; include/example.c and include/script_example.c are programs
   that call them.

   A store is a lent array of ROW_PAGE_INDEX_WORDS(capacity, nodes) words. A lent array is a pointer, never null and aligned for
   uint64_t, and a length in words. Arrays lent to one call must not overlap.

   Each function but row_page_index_seek and row_page_script returns 0, or the number of a refusal (1 to 13), and then
   nothing lent has changed but the answer. It writes seven words into `answer`, as far as they fit:
     result:  0, how many values there are (0 to 3), the values, then 0
     refusal: its number, 1, its detail, then 0
   Five words are enough for the functions below; seven have room for five values. */
#ifndef ROW_PAGE_INDEX_H
#define ROW_PAGE_INDEX_H

#include <stddef.h>
#include <stdint.h>

/* The words of a store, and of an answer. */
#define ROW_PAGE_INDEX_WORDS(capacity, nodes) (8 + (nodes) * (4 + 2 * (capacity)))
#define ROW_PAGE_INDEX_ANSWER 7

#ifdef __cplusplus
extern "C" {
#endif

/* A new store of `nodes` nodes (1 to 65,535) for `capacity` entries each (2 to 4,094), whose rows begin at `start`. No
   values. */
uint64_t row_page_index_create(uint64_t *words, size_t words_len, uint64_t capacity, uint64_t nodes, uint64_t start,
                               uint64_t *answer, size_t answer_len);

/* Adds a range of `count` rows for a page. Values: start, end, nodes taken. */
uint64_t row_page_index_append(uint64_t *words, size_t words_len, uint64_t count, uint64_t page, uint64_t *answer,
                               size_t answer_len);

/* One value, the page of the row; or no value where there is none. */
uint64_t row_page_index_find(const uint64_t *words, size_t words_len, uint64_t row, uint64_t *answer, size_t answer_len);

/* Removes the first entries, whose pages must be `ids` and which must begin at `start` and end at `end`. Values: entries
   removed, nodes freed, levels collapsed. */
uint64_t row_page_index_prune(uint64_t *words, size_t words_len, uint64_t start, uint64_t end, const uint64_t *ids,
                              size_t ids_len, uint64_t *answer, size_t answer_len);

/* Frees every node and closes the store; no row may be below `pivot`. The page ids go into the front of `pages`. Values: nodes
   freed, pages. */
uint64_t row_page_index_destroy(uint64_t *words, size_t words_len, uint64_t pivot, uint64_t *pages, size_t pages_len,
                                uint64_t *answer, size_t answer_len);

/* Closes an empty store. Values: 1, 0. */
uint64_t row_page_index_destroy_empty(uint64_t *words, size_t words_len, uint64_t *answer, size_t answer_len);

/* The full check. Values: entries, tree nodes, free nodes. */
uint64_t row_page_index_check(const uint64_t *words, size_t words_len, uint64_t *answer, size_t answer_len);

/* A cursor is two words: a row, and 0 where the walk is not done. {0, 1} is a cursor never sought. Seek keeps a row; it
   touches no store and cannot be refused. */
void row_page_index_seek(uint64_t *cursor, size_t cursor_len, uint64_t row);

/* The leaf that the cursor reaches; the cursor then keeps its end. Values: start, end, count; or no value where the walk is
   done, and then the cursor stays as it is, as it does at a refusal. Row and page of each entry go into the front of
   `records`, which needs 2 * capacity words. */
uint64_t row_page_index_next(const uint64_t *words, size_t words_len, uint64_t *cursor, size_t cursor_len, uint64_t *records,
                             size_t records_len, uint64_t *answer, size_t answer_len);

/* Runs a script's records in 4,096 words of its own and lists their answers, a line or more for each. The bytes of the
   listing that fit go into the front of `out`, and the rest of `out` stays. Returns the length of the whole listing.
   `script` and `out` are bytes of any alignment; neither is null, also where its length is 0, and they do not overlap. */
size_t row_page_script(const uint8_t *script, size_t script_len, uint8_t *out, size_t out_len);

#ifdef __cplusplus
}
#endif

#endif
