/* Document 01's example as a script. Build and run from the repository:
     tools/build script
     gcc -Wall -Wextra -Iinclude include/script_example.c target/staticlib/libscript.a -o target/script_example
     target/script_example */
#include <stdio.h>
#include <stdlib.h>

#include "row_page_index.h"

enum { CREATE = 1, APPEND = 2, FIND = 3, PRUNE = 4 };

static uint8_t script[512];
static size_t script_len;

static void put(uint64_t number, int bytes)
{
    for (int i = 0; i < bytes; i++)
        script[script_len++] = (uint8_t)(number >> (8 * i));
}

/* The length of what follows, the kind, and words, all of them little-endian. */
static void put_record(unsigned kind, const uint64_t *words, size_t count)
{
    put(2 + 8 * count, 4);
    put(kind, 2);
    for (size_t i = 0; i < count; i++)
        put(words[i], 8);
}

int main(void)
{
    put_record(CREATE, (uint64_t[]){2, 16, 0}, 3);
    for (uint64_t page = 1; page <= 5; page++)
        put_record(APPEND, (uint64_t[]){10, page}, 2);
    put_record(PRUNE, (uint64_t[]){0, 20, 1, 2}, 4);
    put_record(FIND, (uint64_t[]){20}, 1);
    put_record(FIND, (uint64_t[]){5}, 1);

    /* An output of no bytes gives the length that the listing needs. */
    uint8_t none[1];
    size_t len = row_page_script(script, script_len, none, 0);
    uint8_t *listing = malloc(len);
    if (listing == NULL || row_page_script(script, script_len, listing, len) != len)
        return 1;
    fwrite(listing, 1, len, stdout);
    free(listing);
    return 0;
}
