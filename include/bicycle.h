/*
 * The C functions of the static library `bicycle` (target/staticlib/libbicycle.a), for C and C++.
 *
 * Answers. Each call answers a struct by value. `number` is 0, or the number of the refusal: then
 * the call has written nothing, and every other value is 0, except `needed` with 9, the length that
 * the buffer for the answer wants. The lowest number that applies is given; 9 applies only where
 * there is an answer to write. Any numbers may be passed, and any bytes.
 *
 * Slices. A slice is a pointer and a length in bytes. No pointer may be null, not even with length
 * 0. A slice whose pointer is not `const` is written, and must not overlap any other slice of the
 * call, nor be touched by anyone else while the call runs. No pointer is kept after the call.
 *
 * Values. A string is a number below 16,777,216: bit i is X on qubit i, bit 12 + i is Z, both are
 * Y; qubit 0 is the pivot. A native is a number below 540. A matrix is 36 bytes 0 or 1, by rows. A
 * table, and a queue, has 67,108,864 bytes: four for each string, low byte first.
 *
 * Text. Twelve letters I X Z Y, qubit 11 first and qubit 0, the pivot, last, in every language. It
 * is data: it is never mirrored, and its letters are not translated. Backwards it is another
 * string, unless it is a palindrome, and it is not refused. In a right-to-left page it is shown as
 * isolated left-to-right text, and it is read without the marks that isolate it: docs/STRINGS.md.
 * No text ends in a zero byte: its length is answered.
 *
 * The refusals:
 *    1  table length is not 67,108,864
 *    2  queue length is not 67,108,864
 *    3  a matrix number is over 1, or a matrix is not 36 bytes long
 *    4  a string is 16,777,216 or more
 *    5  exact lookup of string 0
 *    6  pivot-free lookup of a string with a letter on the pivot
 *    7  the table has no entry for the string; pivot-free: for none of the three
 *    8  the table is damaged where it was read, or belongs to other matrices
 *    9  the buffer for the answer is shorter than needed
 *   10  rotation expansion of a native without a letter on the pivot
 *   11  a native is 540 or more
 *   12  a plan is not as laid down (told by `bicycle_list` as text)
 *   13  text is not twelve letters of I X Z Y, or a byte is none of them
 */
#ifndef BICYCLE_H
#define BICYCLE_H

#include <stddef.h>
#include <stdint.h>

#ifdef __cplusplus
extern "C" {
#endif

#define BICYCLE_TABLE_LENGTH ((size_t)67108864)
#define BICYCLE_STRINGS ((uint32_t)16777216)
#define BICYCLE_NATIVES ((uint32_t)540)

/* Entries, the identity's included, and the greatest depth. */
typedef struct bicycle_build_result {
    uint32_t number;
    uint32_t entries;
    uint32_t depth;
} bicycle_build_result;

/* accepted is 1, or 0 with the lowest index that breaks its rule. */
typedef struct bicycle_check_result {
    uint32_t number;
    uint32_t accepted;
    uint32_t index;
} bicycle_check_result;

/*
 * The string measured, the base's native number and string, and the count of rotations. Their
 * native numbers are in front of `out`, two bytes each, low first; the bytes behind stay.
 */
typedef struct bicycle_lookup_result {
    size_t needed;
    uint32_t number;
    uint32_t measures;
    uint32_t native;
    uint32_t base;
    uint32_t rotations;
} bicycle_lookup_result;

typedef struct bicycle_value_result {
    uint32_t number;
    uint32_t value;
} bicycle_value_result;

/* length is how many bytes were written to the front of `out`; the bytes behind stay. */
typedef struct bicycle_text_result {
    size_t needed;
    size_t length;
    uint32_t number;
} bicycle_text_result;

/* A capital, and the two that anticommute with it, in the order I X Z Y; both are 0 for I. */
typedef struct bicycle_letter_result {
    uint32_t number;
    uint32_t letter;
    uint32_t first;
    uint32_t second;
} bicycle_letter_result;

/* An automorphism and its inverse, reduced modulo 6, and how many generators make it. */
typedef struct bicycle_automorphism_result {
    uint64_t generators;
    uint32_t x;
    uint32_t y;
    uint32_t inverse_x;
    uint32_t inverse_y;
} bicycle_automorphism_result;

/* Fills table and queue, whatever they held; refuses 1, 2, 3. */
bicycle_build_result bicycle_build(
    uint8_t *table, size_t table_len, uint8_t *queue, size_t queue_len,
    const uint8_t *mx, size_t mx_len, const uint8_t *my, size_t my_len);

/* Whether every index of a table meets its rule; refuses 1, 3. */
bicycle_check_result bicycle_check(
    const uint8_t *table, size_t table_len,
    const uint8_t *mx, size_t mx_len, const uint8_t *my, size_t my_len);

/* The plan of string p; `out` gets its rotations, base side first; refuses 1, 3, 4, 5, 7, 8, 9. */
bicycle_lookup_result bicycle_implementation(
    const uint8_t *table, size_t table_len,
    const uint8_t *mx, size_t mx_len, const uint8_t *my, size_t my_len,
    uint32_t p, uint8_t *out, size_t out_len);

/* The plan of p with the best letter on the pivot; `out` as before; refuses 1, 3, 4, 6, 7, 8, 9. */
bicycle_lookup_result bicycle_min_data(
    const uint8_t *table, size_t table_len,
    const uint8_t *mx, size_t mx_len, const uint8_t *my, size_t my_len,
    uint32_t p, uint8_t *out, size_t out_len);

/* Whether every value of a table is 0, as 1 or 0; refuses 1. */
bicycle_value_result bicycle_is_empty(const uint8_t *table, size_t table_len);

/* How many values of a table are not 0; refuses 1. */
bicycle_value_result bicycle_len(const uint8_t *table, size_t table_len);

/* The cost of string p: 1 + 2 * depth, the identity's 0; refuses 1, 4, 7. */
bicycle_value_result bicycle_cost(const uint8_t *table, size_t table_len, uint32_t p);

/* The string that native n measures; refuses 3, 11. */
bicycle_value_result bicycle_measures(
    const uint8_t *mx, size_t mx_len, const uint8_t *my, size_t my_len, uint32_t n);

/*
 * Writes the three instructions of native n, as `aut(4,5) meas(X,Z) aut(2,1)`: of the two letters
 * the first is that of qubit 0, the second that of qubit 6; refuses 9, 11.
 */
bicycle_text_result bicycle_native_instructions(uint32_t n, uint8_t *out, size_t out_len);

/* Writes the five instructions of native n as a rotation, in this form; refuses 3, 9, 10, 11. */
bicycle_text_result bicycle_rotation_instructions(
    const uint8_t *mx, size_t mx_len, const uint8_t *my, size_t my_len,
    uint32_t n, uint8_t *out, size_t out_len);

/*
 * The string that twelve letters spell, qubit 11 first and qubit 0 last, in either case. A mirrored
 * text is read too, as another string: compare the value with the one meant; refuses 13.
 */
bicycle_value_result bicycle_from_text(const uint8_t *text, size_t text_len);

/* Writes the letters of string p, qubit 11 first and qubit 0 last, in capitals; refuses 4, 9. */
bicycle_text_result bicycle_display(uint32_t p, uint8_t *out, size_t out_len);

/* Whether the strings commute, as 1 or 0; refuses 4. */
bicycle_value_result bicycle_commutes_with(uint32_t p, uint32_t q);

/* String p, multiplied by q if the two anticommute; refuses 4. */
bicycle_value_result bicycle_conjugate_with(uint32_t p, uint32_t q);

/*
 * Writes all that the program `plan` prints for an input, its lines `refused=N` too. The line
 * `measures=` has a text, qubit 11 first; refuses 9.
 */
bicycle_text_result bicycle_list(
    const uint8_t *input, size_t input_len, uint8_t *out, size_t out_len);

/* The letter that a byte stands for, in either case; refuses 13. */
bicycle_letter_result bicycle_letter(uint8_t byte);

/* The automorphism (x, y); refuses nothing. */
bicycle_automorphism_result bicycle_automorphism(uint8_t x, uint8_t y);

/* The product of (x, y) and (x2, y2); refuses nothing. */
bicycle_automorphism_result bicycle_automorphism_mul(
    uint8_t x, uint8_t y, uint8_t x2, uint8_t y2);

#ifdef __cplusplus
}
#endif

#endif
