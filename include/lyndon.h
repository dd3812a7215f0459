/* Lyndon words and brackets, for C and C++: the calls of the static library libc_interface.a.
 *
 * Letters are the numbers from 0 on. A Lyndon word is told by its length and its code, the number that it spells in
 * base k, first letter highest. A sheet of length m has k^m values modulo 2^64, at each code the coefficient of the
 * word of m letters with that code. docs/RULES.md has the rules, docs/FAULTS.md the faults.
 *
 * A call on a table takes k, n and `grows`, and works on the table that they make: open k n, and then grow so many
 * times. So it has the first `grows` Lyndon words of at most n letters, numbered from 0. Nothing is kept between calls,
 * and the table lies in memory of the call's own (about 14 KB of stack; expand, into and back take 33 KB), so that
 * nothing rests on what a caller hands back. `lyndon_entries` answers how many Lyndon words there are.
 *
 * Each call answers a fault whose number is 0 where it was accepted. Where it is refused, nothing that was lent is
 * altered. Pointers are to be valid for their counts, also where a count is 0, and memory that is written must not
 * overlap other memory of the call; nothing else is asked.
 */
#ifndef LYNDON_H
#define LYNDON_H

#include <stddef.h>
#include <stdint.h>

#ifdef __cplusplus
extern "C" {
#endif

/* A Lyndon word, with the numbers of the two entries of its split, which spell it one after the other. */
typedef struct lyndon_entry {
    uint8_t length;
    uint16_t code;
    uint16_t left;  /* LYNDON_NONE for a letter */
    uint16_t right; /* LYNDON_NONE for a letter */
} lyndon_entry;

/* What stands for a number that there is not. */
#define LYNDON_NONE 65535

/* Every shape has at most so many entries, */
#define LYNDON_MOST_ENTRIES 1496
/* and a line at most so many bytes. */
#define LYNDON_LONGEST_LINE 74

/* Why a call was refused. */
typedef struct lyndon_fault {
    uint8_t number;  /* 0 where the call was accepted, and then all is 0 */
    uint8_t layer;   /* which layer found it: LYNDON_WORD to LYNDON_SHEET */
    uint8_t first;   /* the layers that passed it up, lowest first, or 0 */
    uint8_t second;
    uint8_t third;
    size_t place;    /* the byte of a text that it is about, from 0; 0 where none is named */
    size_t position; /* the letter of a word that it is about, from 0; 0 where none is named */
} lyndon_fault;

/* The layers. */
#define LYNDON_WORD 1
#define LYNDON_TEXT 2
#define LYNDON_TABLE 3
#define LYNDON_SHEET 4

/* The numbers of faults. */
#define LYNDON_LETTERS 1        /* k is outside 1 to 16 */
#define LYNDON_DEPTH 2          /* n is outside 1 to 12 */
#define LYNDON_MANY_WORDS 3     /* k^n is above 4,096 */
#define LYNDON_ENTRIES_FULL 4   /* a word is missing, and entry memory is full */
#define LYNDON_OTHER_SIZE 5     /* a sheet has not k^m values for its length m */
#define LYNDON_LIST_FULL 6      /* a list's memory is shorter than what it must hold */
#define LYNDON_BUFFER_FULL 7    /* a byte buffer is too short for what is to be written */
#define LYNDON_COMPLETE 9       /* no Lyndon word up to n letters is missing: so many grows there are not */
#define LYNDON_NO_ENTRY 10      /* no entry has this number */
#define LYNDON_INCOMPLETE 11    /* a Lyndon word of at most m letters is no entry, for a sheet of length m */
#define LYNDON_OTHER_LENGTH 12  /* a word or a length is outside 1 to n; in join, a length is 0 or their sum above n */
#define LYNDON_FOREIGN_LETTER 13 /* a letter is not below k */
#define LYNDON_LONG_TEXT 14     /* a text is longer than 45 bytes */
#define LYNDON_MALFORMED 15     /* a text is not well formed */
#define LYNDON_UNKNOWN_TEXT 16  /* no entry has this text */
#define LYNDON_LONG_WORD 17     /* a word has more than 65,535 letters */

/* Writes the entries of all Lyndon words of at most n letters below k, and how many there are. 1, 2, 3, 4. */
lyndon_fault lyndon_entries(uint64_t k, uint64_t n, lyndon_entry *entries, size_t places, size_t *count);

/* Writes the lines of all of them, one behind the other, and how many bytes they have: number, word, left, right and
 * text, with a space between and a line feed behind. 1, 2, 3, 7. */
lyndon_fault lyndon_lines(uint64_t k, uint64_t n, uint8_t *buffer, size_t size, size_t *bytes);

/* ---- calls on the table of k, n and `grows`: 1, 2, 3, 9, and then as each says */

/* The entry with this number. 10. */
lyndon_fault lyndon_look(uint64_t k, uint64_t n, size_t grows, size_t number, lyndon_entry *entry);

/* The number of the entry with this word, or LYNDON_NONE where no entry has it. 12, 13. */
lyndon_fault lyndon_find(uint64_t k, uint64_t n, size_t grows, const uint8_t *letters, size_t count, size_t *number);

/* Writes the line of the entry with this number, and how many bytes it has. 10, 7. */
lyndon_fault lyndon_line(uint64_t k, uint64_t n, size_t grows, size_t number, uint8_t *buffer, size_t size,
                         size_t *bytes);

/* The number of the entry with this text, as its line has it. 14, 15, 13, 16. */
lyndon_fault lyndon_read(uint64_t k, uint64_t n, size_t grows, const uint8_t *text, size_t size, size_t *number);

/* Writes the polynomial of the bracket of the entry with this number over a sheet of its length. 10, 5. */
lyndon_fault lyndon_expand(uint64_t k, uint64_t n, size_t grows, size_t number, uint64_t *sheet, size_t values);

/* Replaces a sheet of length m by its coordinates: the values c(w) for which it is the sum of all c(w) P(w).
 * 12, 5, 11. */
lyndon_fault lyndon_into(uint64_t k, uint64_t n, size_t grows, size_t m, uint64_t *sheet, size_t values);

/* Replaces coordinates by the sheet of length m that has them. 12, 5, 11. */
lyndon_fault lyndon_back(uint64_t k, uint64_t n, size_t grows, size_t m, uint64_t *sheet, size_t values);

/* Whether each coordinate of a sheet of length m that stands at a word that is not Lyndon is zero: 1 or 0. So the sheet
 * is a sum of multiples of brackets of entries, or not. 12, 5, 11. */
lyndon_fault lyndon_lie(uint64_t k, uint64_t n, size_t grows, size_t m, const uint64_t *coordinates, size_t values,
                        uint8_t *yes);

/* Writes xy - yx to a sheet of length a + b, for x of length a and y of length b. 12, 5. */
lyndon_fault lyndon_join(uint64_t k, uint64_t n, size_t grows, size_t a, const uint64_t *x, size_t x_values, size_t b,
                         const uint64_t *y, size_t y_values, uint64_t *sheet, size_t values);

/* ---- words of letters from 0 to 255 */

/* Writes where the Lyndon factors of a word start, and how many there are. 17, 6. */
lyndon_fault lyndon_factor(const uint8_t *word, size_t letters, uint16_t *starts, size_t places, size_t *count);

#ifdef __cplusplus
}
#endif

#endif
