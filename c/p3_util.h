/*
 * Proved bit reversal and transposes of lists, from the static library libp3_util_c.a. No other file has to be linked.
 * The library calls at most memcpy and memmove, allocates nothing and keeps no state, so threads may call it at the same
 * time on different lists. Its code is for x86-64-v2.
 *
 * The number at the end of a name is the size of an item in bytes. Items are moved as a whole, and their contents are
 * never looked at.
 *
 * A call with a condition returns true if the condition holds. Otherwise it returns false and changes nothing. The
 * other calls return a number.
 *
 * What a call needs from its pointers and cannot test:
 * - A list of n items has n times the size of an item in bytes. These bytes are in one object, at any address, and there
 *   are fewer than 2^63 of them. If n is 0 the pointer may have any value, including null.
 * - vals can be read and written, input can be read, and output can be written. During the call nothing else writes to
 *   any of them, and nothing else reads vals or output.
 * - input and output do not overlap.
 * - exponent and reversed each point to one size_t that can be read and written, and that nothing else reads or writes
 *   during the call.
 */
#ifndef P3_UTIL_H
#define P3_UTIL_H

#include <stdbool.h>
#include <stddef.h>

/* Before the calls with a condition: the compiler warns if a program does not look at what such a call returns. */
#if defined(__cplusplus) && __cplusplus >= 201703L
#define P3_UTIL_CHECK [[nodiscard]]
#elif defined(__GNUC__)
#define P3_UTIL_CHECK __attribute__((warn_unused_result))
#else
#define P3_UTIL_CHECK
#endif

#ifdef __cplusplus
extern "C" {
#endif

/*
 * Reverses the order of count items, not bytes, by index bits: with 2^k items, index i gets the item from the index that
 * has the k bits of i in reversed order. The condition is that count is zero or a power of two. The size of a list in bytes
 * often is one too, so a call with `sizeof list` is taken, and runs out of bounds.
 */
P3_UTIL_CHECK bool p3_util_reverse_1(void *vals, size_t count);
P3_UTIL_CHECK bool p3_util_reverse_2(void *vals, size_t count);
P3_UTIL_CHECK bool p3_util_reverse_4(void *vals, size_t count);
P3_UTIL_CHECK bool p3_util_reverse_8(void *vals, size_t count);
P3_UTIL_CHECK bool p3_util_reverse_12(void *vals, size_t count);
P3_UTIL_CHECK bool p3_util_reverse_16(void *vals, size_t count);
P3_UTIL_CHECK bool p3_util_reverse_20(void *vals, size_t count);
P3_UTIL_CHECK bool p3_util_reverse_32(void *vals, size_t count);
P3_UTIL_CHECK bool p3_util_reverse_64(void *vals, size_t count);

/*
 * Reverses the order of rows of row_width items by index bits, and moves each row as one item. The condition is that
 * count, the number of items in all rows, is zero or row_width times a power of two. Items of a size without a call of its
 * own can be moved as rows of smaller items: an item of 36 bytes is a row of three items of 12 bytes. If a call above has
 * the size of a row, that call is faster: for rows of 64 bytes use p3_util_reverse_64.
 */
P3_UTIL_CHECK bool p3_util_reverse_rows_1(void *vals, size_t count, size_t row_width);
P3_UTIL_CHECK bool p3_util_reverse_rows_2(void *vals, size_t count, size_t row_width);
P3_UTIL_CHECK bool p3_util_reverse_rows_4(void *vals, size_t count, size_t row_width);
P3_UTIL_CHECK bool p3_util_reverse_rows_8(void *vals, size_t count, size_t row_width);
P3_UTIL_CHECK bool p3_util_reverse_rows_12(void *vals, size_t count, size_t row_width);
P3_UTIL_CHECK bool p3_util_reverse_rows_16(void *vals, size_t count, size_t row_width);
P3_UTIL_CHECK bool p3_util_reverse_rows_20(void *vals, size_t count, size_t row_width);
P3_UTIL_CHECK bool p3_util_reverse_rows_32(void *vals, size_t count, size_t row_width);
P3_UTIL_CHECK bool p3_util_reverse_rows_64(void *vals, size_t count, size_t row_width);

/*
 * Writes to output the transpose of input, a matrix of height rows of width items, stored row after row: item
 * y * width + x of the input becomes item x * height + y of the output. The call returns false if input_count or
 * output_count is not width times height, or if this product does not fit into a size_t.
 */
P3_UTIL_CHECK bool p3_util_transpose_1(const void *input, size_t input_count, void *output, size_t output_count,
    size_t width, size_t height);
P3_UTIL_CHECK bool p3_util_transpose_2(const void *input, size_t input_count, void *output, size_t output_count,
    size_t width, size_t height);
P3_UTIL_CHECK bool p3_util_transpose_4(const void *input, size_t input_count, void *output, size_t output_count,
    size_t width, size_t height);
P3_UTIL_CHECK bool p3_util_transpose_8(const void *input, size_t input_count, void *output, size_t output_count,
    size_t width, size_t height);
P3_UTIL_CHECK bool p3_util_transpose_12(const void *input, size_t input_count, void *output, size_t output_count,
    size_t width, size_t height);
P3_UTIL_CHECK bool p3_util_transpose_16(const void *input, size_t input_count, void *output, size_t output_count,
    size_t width, size_t height);
P3_UTIL_CHECK bool p3_util_transpose_20(const void *input, size_t input_count, void *output, size_t output_count,
    size_t width, size_t height);
P3_UTIL_CHECK bool p3_util_transpose_32(const void *input, size_t input_count, void *output, size_t output_count,
    size_t width, size_t height);
P3_UTIL_CHECK bool p3_util_transpose_64(const void *input, size_t input_count, void *output, size_t output_count,
    size_t width, size_t height);

/* Returns the least e with n <= 2^e. For n = 0 and n = 1 it returns 0. */
size_t p3_util_log2_ceil(size_t n);

/* Returns the greatest e with 2^e <= n. For n = 0 it returns 0. */
size_t p3_util_log2_floor(size_t n);

/* Writes to exponent the logarithm of n, to base 2 or to base 3. The condition is that n is a power of that base. */
P3_UTIL_CHECK bool p3_util_log2_strict(size_t n, size_t *exponent);
P3_UTIL_CHECK bool p3_util_log3_strict(size_t n, size_t *exponent);

/*
 * Writes to reversed the bit_len low binary digits of x in reversed order. If bit_len is 0 it writes all 64 digits of x
 * in reversed order. The condition is that bit_len is at most 64.
 */
P3_UTIL_CHECK bool p3_util_reverse_bits_len(size_t x, size_t bit_len, size_t *reversed);

/* Before a reference to a function. If the compiler knows `retain`, --gc-sections does not drop the reference. */
#if defined(__has_attribute)
#if __has_attribute(retain)
#define P3_UTIL_KEEP __attribute__((used, retain))
#else
#define P3_UTIL_KEEP __attribute__((used))
#endif
#endif

/*
 * Returns the number of the interface, which is also in the function's name. If the compiler has __has_attribute, as GCC 5
 * and clang do, code that includes this header refers to the function, so it does not link with a library of another version.
 */
size_t p3_util_c_interface_3_library_and_bindings_are_of_one_version(void);
#ifdef P3_UTIL_KEEP
P3_UTIL_KEEP static size_t (*const p3_util_c_interface)(void) =
    p3_util_c_interface_3_library_and_bindings_are_of_one_version;
#endif

#ifdef __cplusplus
}
#endif

#endif
