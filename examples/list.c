/* What the library does with the Lyndon words of at most three letters 0 and 1. examples/run builds and runs it. */
#include "lyndon.h"

#include <inttypes.h>
#include <stdio.h>
#include <stdlib.h>
#include <string.h>

enum { K = 2, N = 3, LENGTH = 3, VALUES = 8 };

/* Ends the program where a call was refused. */
static void accepted(lyndon_fault fault)
{
    if (fault.number != 0) {
        fprintf(stderr, "fault %u of layer %u\n", (unsigned)fault.number, (unsigned)fault.layer);
        exit(EXIT_FAILURE);
    }
}

/* Prints the values of a sheet that are not zero, each with its word, as numbers with a sign. */
static void print_sheet(const char *name, const uint64_t sheet[VALUES])
{
    printf("%s:", name);
    for (unsigned code = 0; code < VALUES; code++) {
        if (sheet[code] != 0) {
            printf(" %u%u%u %" PRId64, code >> 2 & 1, code >> 1 & 1, code & 1, (int64_t)sheet[code]);
        }
    }
    printf("\n");
}

static void print_table(void)
{
    lyndon_entry entries[LYNDON_MOST_ENTRIES];
    size_t count;
    accepted(lyndon_entries(K, N, entries, LYNDON_MOST_ENTRIES, &count));
    printf("%d %d %zu\n", K, N, count);
    for (size_t i = 0; i < count; i++) {
        if (entries[i].left != LYNDON_NONE) {
            printf("%zu has the parts %u and %u\n", i, (unsigned)entries[i].left, (unsigned)entries[i].right);
        }
    }

    uint8_t lines[LYNDON_MOST_ENTRIES * LYNDON_LONGEST_LINE];
    size_t bytes;
    accepted(lyndon_lines(K, N, lines, sizeof lines, &bytes));
    fwrite(lines, 1, bytes, stdout);
}

/* Calls on a table that has so many entries. */
static void look_things_up(size_t grows)
{
    lyndon_entry entry;
    accepted(lyndon_look(K, N, grows, 4, &entry));
    printf("entry 4: %u letters, code %u\n", (unsigned)entry.length, (unsigned)entry.code);
    printf("entry 5: fault %u\n", (unsigned)lyndon_look(K, N, grows, 5, &entry).number);

    size_t number;
    accepted(lyndon_find(K, N, grows, (const uint8_t[]){0, 0, 1}, 3, &number));
    printf("find 001: %zu\n", number);
    accepted(lyndon_find(K, N, grows, (const uint8_t[]){0, 1, 0}, 3, &number));
    printf("find 010: %s\n", number == LYNDON_NONE ? "none" : "some");

    uint8_t line[LYNDON_LONGEST_LINE];
    size_t bytes;
    accepted(lyndon_line(K, N, grows, 2, line, sizeof line, &bytes));
    printf("line of 2: %.*s", (int)bytes, (const char *)line);

    const char *text = "[0,[0,1]]";
    accepted(lyndon_read(K, N, grows, (const uint8_t *)text, strlen(text), &number));
    printf("read %s: %zu\n", text, number);
    text = "[0,[0,1]";
    lyndon_fault fault = lyndon_read(K, N, grows, (const uint8_t *)text, strlen(text), &number);
    if (fault.number != LYNDON_MALFORMED) {
        exit(EXIT_FAILURE);
    }
    printf("read %s: fault %u at byte %zu\n", text, (unsigned)fault.number, fault.place);
}

static void print_factors(void)
{
    const uint8_t word[] = {200, 7, 7, 30, 7, 7, 30, 2};
    uint16_t starts[sizeof word];
    size_t count;
    accepted(lyndon_factor(word, sizeof word, starts, sizeof word, &count));
    printf("factors of 200 7 7 30 7 7 30 2 start at:");
    for (size_t i = 0; i < count; i++) {
        printf(" %u", (unsigned)starts[i]);
    }
    printf("\n");
}

static void convert_sheets(size_t grows)
{
    /* the entry 3, 001, has the parts 0 and 2: 0 and 01 */
    uint64_t x[2], y[4], bracket[VALUES], joined[VALUES];
    accepted(lyndon_expand(K, N, grows, 3, bracket, VALUES));
    print_sheet("bracket of 3", bracket);
    accepted(lyndon_expand(K, N, grows, 0, x, 2));
    accepted(lyndon_expand(K, N, grows, 2, y, 4));
    accepted(lyndon_join(K, N, grows, 1, x, 2, 2, y, 4, joined, VALUES));
    printf("join of 0 and 2: %s\n", memcmp(bracket, joined, sizeof joined) == 0 ? "the same" : "another");

    uint8_t yes;
    accepted(lyndon_into(K, N, grows, LENGTH, bracket, VALUES));
    print_sheet("its coordinates", bracket);
    accepted(lyndon_lie(K, N, grows, LENGTH, bracket, VALUES, &yes));
    printf("a sum of multiples of brackets: %s\n", yes ? "yes" : "no");

    uint64_t word[VALUES] = {0, 1};
    accepted(lyndon_into(K, N, grows, LENGTH, word, VALUES));
    print_sheet("coordinates of 001", word);
    accepted(lyndon_lie(K, N, grows, LENGTH, word, VALUES, &yes));
    printf("a sum of multiples of brackets: %s\n", yes ? "yes" : "no");
    accepted(lyndon_back(K, N, grows, LENGTH, word, VALUES));
    print_sheet("and back", word);
}

int main(void)
{
    /* so many Lyndon words there are, and for sheets of length N all must be entries */
    size_t grows = 5;
    print_table();
    look_things_up(grows);
    print_factors();
    convert_sheets(grows);
    return EXIT_SUCCESS;
}
