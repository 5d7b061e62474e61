/* Document 01's example, then a walk and a release. Build and run from the repository:
     tools/build host
     gcc -Wall -Wextra -Iinclude include/example.c target/staticlib/libhost.a -o target/example && target/example */
#include <inttypes.h>
#include <stdio.h>

#include "row_page_index.h"

#define CAPACITY 2
#define NODES 16
#define ANSWER ROW_PAGE_INDEX_ANSWER

static uint64_t words[ROW_PAGE_INDEX_WORDS(CAPACITY, NODES)];
#define WORDS (sizeof words / sizeof words[0])

/* One line for an answer: the name and the values, or the refusal. */
static void print(const char *name, const uint64_t answer[ANSWER])
{
    uint64_t count = answer[1];
    printf("%s", answer[0] == 0 ? name : "no");
    if (answer[0] != 0)
        printf(" %" PRIu64, answer[0]);
    for (uint64_t i = 0; i < count; i++)
        printf(" %" PRIu64, answer[2 + i]);
    printf("\n");
}

int main(void)
{
    uint64_t answer[ANSWER];
    const uint64_t ids[] = {1, 2};
    const uint64_t rows[] = {20, 5};

    row_page_index_create(words, WORDS, CAPACITY, NODES, 0, answer, ANSWER);
    print("create", answer);
    for (uint64_t page = 1; page <= 5; page++) {
        row_page_index_append(words, WORDS, 10, page, answer, ANSWER);
        print("append", answer);
    }
    row_page_index_prune(words, WORDS, 0, 20, ids, 2, answer, ANSWER);
    print("prune", answer);
    for (int i = 0; i < 2; i++) {
        row_page_index_find(words, WORDS, rows[i], answer, ANSWER);
        print(answer[0] == 0 && answer[1] == 0 ? "none" : "page", answer);
    }
    printf("free %" PRIu64 "\n", words[4]);

    uint64_t cursor[2] = {0, 1};
    uint64_t records[2 * CAPACITY];
    row_page_index_seek(cursor, 2, 0);
    while (row_page_index_next(words, WORDS, cursor, 2, records, 2 * CAPACITY, answer, ANSWER) == 0 && answer[1] > 0)
        print("leaf", answer);

    uint64_t pages[5];
    row_page_index_destroy(words, WORDS, 0, pages, 5, answer, ANSWER);
    print("release", answer);
    return 0;
}
