/* A user's shared library that uses the static one. */
#include "p3_util.h"

bool yours_reverse(unsigned char *bytes, size_t len);

bool yours_reverse(unsigned char *bytes, size_t len) {
    return p3_util_reverse_1(bytes, len);
}
