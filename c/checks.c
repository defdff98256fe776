/*
 * Compares each call with plain loops: on items of its size at any address, on lists that it refuses and on empty
 * lists. The exit status is the line that failed.
 */
#include <string.h>

#include "p3_util.h"

#define CHECK(fact)          \
    do {                     \
        if (!(fact)) {       \
            return __LINE__; \
        }                    \
    } while (0)

/* The largest lists are those of check_split, and those of 2^15 items of 64 bytes. */
enum { ROOM = 1 + 1025 * 1024 * 4 };

static unsigned char before[ROOM], after[ROOM], wanted[ROOM];

/* Fills `len` bytes at an odd address, always with the same values. */
static unsigned char *filled(unsigned char *room, size_t len) {
    unsigned long long state = 1;
    for (size_t i = 0; i < len; i++) {
        state = state * 6364136223846793005ULL + 1442695040888963407ULL;
        room[1 + i] = (unsigned char)(state >> 56);
    }
    return room + 1;
}

static size_t reversed(size_t index, unsigned digits) {
    size_t result = 0;
    for (unsigned k = 0; k < digits; k++) {
        result = result * 2 + (index >> k) % 2;
    }
    return result;
}

typedef bool reverse_call(void *, size_t);
typedef bool reverse_rows_call(void *, size_t, size_t);
typedef bool transpose_call(const void *, size_t, void *, size_t, size_t, size_t);

/* Empty lists, lists of each power of two up to 2^10 items, and of two powers of two on the long path. */
static int check_reverse(size_t size, reverse_call *reverse) {
    static const unsigned DIGITS[] = {0, 1, 2, 3, 4, 5, 6, 7, 8, 9, 10, 14, 15};
    for (size_t d = 0; d < sizeof DIGITS / sizeof DIGITS[0]; d++) {
        size_t items = (size_t)1 << DIGITS[d];
        unsigned char *list = filled(after, items * size), *old = filled(before, items * size);
        for (size_t i = 0; i < items; i++) {
            memcpy(wanted + i * size, old + reversed(i, DIGITS[d]) * size, size);
        }
        CHECK(reverse(list, items));
        CHECK(memcmp(list, wanted, items * size) == 0);
    }
    unsigned char *list = filled(after, 12 * size), *old = filled(before, 12 * size);
    CHECK(!reverse(list, 7) && !reverse(list, 12) && memcmp(list, old, 12 * size) == 0);
    CHECK(reverse(NULL, 0));
    return 0;
}

static int check_rows(size_t size, reverse_rows_call *reverse_rows) {
    static const size_t WIDTHS[] = {1, 2, 3, 7, 8, 16, 33};
    for (size_t w = 0; w < sizeof WIDTHS / sizeof WIDTHS[0]; w++) {
        for (unsigned digits = 0; digits <= 7; digits++) {
            size_t rows = (size_t)1 << digits, row = WIDTHS[w] * size;
            unsigned char *list = filled(after, rows * row), *old = filled(before, rows * row);
            for (size_t i = 0; i < rows; i++) {
                memcpy(wanted + i * row, old + reversed(i, digits) * row, row);
            }
            CHECK(reverse_rows(list, rows * WIDTHS[w], WIDTHS[w]));
            CHECK(memcmp(list, wanted, rows * row) == 0);
        }
    }
    unsigned char *list = filled(after, 12 * size), *old = filled(before, 12 * size);
    CHECK(!reverse_rows(list, 12, 5) && !reverse_rows(list, 12, 4) && !reverse_rows(list, 12, 0));
    CHECK(memcmp(list, old, 12 * size) == 0);
    CHECK(reverse_rows(NULL, 0, 7) && reverse_rows(NULL, 0, 0));
    return 0;
}

static int check_shape(size_t size, transpose_call *transpose, size_t width, size_t height) {
    size_t items = width * height;
    unsigned char *input = filled(before, items * size), *output = after + 1;
    for (size_t i = 0; i < items; i++) {
        memcpy(wanted + (i % width * height + i / width) * size, input + i * size, size);
    }
    CHECK(transpose(input, items, output, items, width, height));
    CHECK(memcmp(output, wanted, items * size) == 0);
    return 0;
}

static int check_transpose(size_t size, transpose_call *transpose) {
    static const size_t SHAPES[][2] = {{1, 1}, {2, 2}, {3, 5}, {8, 8}, {1, 40}, {40, 1}, {17, 19}, {64, 48}, {150, 130}};
    for (size_t s = 0; s < sizeof SHAPES / sizeof SHAPES[0]; s++) {
        int failed = check_shape(size, transpose, SHAPES[s][0], SHAPES[s][1]);
        if (failed) {
            return failed;
        }
    }
    unsigned char *output = filled(after, 32 * size);
    memcpy(wanted, output, 32 * size);
    CHECK(!transpose(before, 31, output, 32, 8, 4) && !transpose(before, 32, output, 31, 8, 4));
    CHECK(!transpose(before, 0, output, 0, (size_t)1 << 32, (size_t)1 << 32));
    CHECK(memcmp(output, wanted, 32 * size) == 0);
    CHECK(transpose(NULL, 0, NULL, 0, 0, 5));
    return 0;
}

static int check_bits(void) {
    size_t number = 7;
    CHECK(p3_util_log2_ceil(0) == 0 && p3_util_log2_ceil(9) == 4 && p3_util_log2_floor(9) == 3);
    CHECK(!p3_util_log2_strict(6, &number) && !p3_util_log3_strict(6, &number) && number == 7);
    CHECK(!p3_util_reverse_bits_len(1, 65, &number) && number == 7);
    CHECK(p3_util_log2_strict(1024, &number) && number == 10);
    CHECK(p3_util_log3_strict(531441, &number) && number == 12);
    CHECK(p3_util_log3_strict(1594323, &number) && number == 13);
    CHECK(p3_util_reverse_bits_len(11, 5, &number) && number == 26);
    return 0;
}

/* Numbers of more than 32 bits, as arguments and as a result. */
static int check_long_words(void) {
    size_t long_word = (size_t)1 << 40, number = 7;
    CHECK(p3_util_log2_ceil(long_word) == 40 && p3_util_log2_ceil(long_word + 1) == 41);
    CHECK(p3_util_log2_floor(long_word) == 40 && p3_util_log2_floor(long_word - 1) == 39);
    CHECK(p3_util_log2_strict(long_word, &number) && number == 40 && !p3_util_log2_strict(long_word + 1, &number));
    CHECK(p3_util_log3_strict(12157665459056928801ULL, &number) && number == 40);
    CHECK(!p3_util_log3_strict(long_word + 1, &number) && number == 40);
    CHECK(p3_util_reverse_bits_len(long_word + 1, 42, &number) && number == long_word * 2 + 2);
    CHECK(!p3_util_reverse_bits_len(1, long_word, &number) && number == long_word * 2 + 2);
    return 0;
}

/* A matrix of more than 1048576 items, which is split. */
static int check_split(size_t size, transpose_call *transpose) {
    return check_shape(size, transpose, 1025, 1024);
}

#define CHECK_CALL(check, size, call)   \
    do {                                \
        int failed = check(size, call); \
        if (failed) {                   \
            return failed;              \
        }                               \
    } while (0)

#define CHECK_SIZE(size)                                             \
    do {                                                             \
        CHECK_CALL(check_reverse, size, p3_util_reverse_##size);     \
        CHECK_CALL(check_rows, size, p3_util_reverse_rows_##size);   \
        CHECK_CALL(check_transpose, size, p3_util_transpose_##size); \
    } while (0)

int main(void) {
    int status = check_bits();
    if (!status) {
        status = check_long_words();
    }
    if (status) {
        return status;
    }
    CHECK_SIZE(1);
    CHECK_SIZE(2);
    CHECK_SIZE(4);
    CHECK_SIZE(8);
    CHECK_SIZE(12);
    CHECK_SIZE(16);
    CHECK_SIZE(20);
    CHECK_SIZE(32);
    CHECK_SIZE(64);
    CHECK_CALL(check_split, 1, p3_util_transpose_1);
    CHECK_CALL(check_split, 4, p3_util_transpose_4);
    return 0;
}
