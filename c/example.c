/* Reverses eight numbers by index bits, and transposes a matrix of two rows. */
#include <inttypes.h>
#include <stdio.h>

#include "p3_util.h"

static void print(const char *name, const uint64_t *list, size_t len) {
    printf("%s:", name);
    for (size_t i = 0; i < len; i++) {
        printf(" %" PRIu64, list[i]);
    }
    printf("\n");
}

int main(void) {
    uint64_t list[8] = {0, 1, 2, 3, 4, 5, 6, 7};
    if (!p3_util_reverse_8(list, 8)) {
        return 1;
    }
    print("reversed", list, 8);

    const uint64_t rows[6] = {1, 2, 3, 4, 5, 6};
    uint64_t columns[6];
    if (!p3_util_transpose_8(rows, 6, columns, 6, 3, 2)) {
        return 1;
    }
    print("transposed", columns, 6);

    /* Seven is not a power of two, so the call returns false and leaves the list as it was. */
    return p3_util_reverse_8(list, 7) ? 1 : 0;
}
