/* characters.c: names and texts of XML 1.0, Fifth Edition, in UTF-8. */
#include "state.h"

#define L (NAME_FIRST | NAME_LATER | TEXT_BYTE) /* a letter or _ */
#define N (NAME_LATER | TEXT_BYTE)              /* a digit, - or . */
#define T TEXT_BYTE
#define B (BLANK | TEXT_BYTE)
const uint8_t bench_class[256] = {
    0, 0, 0, 0, 0, 0, 0, 0, 0, B, B, 0, 0, 0, 0, 0, 0, 0, 0, 0, 0, 0, 0, 0, 0, 0, 0, 0, 0, 0, 0, 0,
    B, T, T, T, T, T, T, T, T, T, T, T, T, N, N, T, N, N, N, N, N, N, N, N, N, N, T, T, T, T, T, T,
    T, L, L, L, L, L, L, L, L, L, L, L, L, L, L, L, L, L, L, L, L, L, L, L, L, L, L, T, T, T, T, L,
    T, L, L, L, L, L, L, L, L, L, L, L, L, L, L, L, L, L, L, L, L, L, L, L, L, L, L, T, T, T, T, T,
    /* bytes that stand behind the first of a character */
    0, 0, 0, 0, 0, 0, 0, 0, 0, 0, 0, 0, 0, 0, 0, 0, 0, 0, 0, 0, 0, 0, 0, 0, 0, 0, 0, 0, 0, 0, 0, 0,
    0, 0, 0, 0, 0, 0, 0, 0, 0, 0, 0, 0, 0, 0, 0, 0, 0, 0, 0, 0, 0, 0, 0, 0, 0, 0, 0, 0, 0, 0, 0, 0,
    /* the first of two, of three and of four bytes */
    0, 0, N, L, L, L, L, L, L, L, L, L, N, L, L, L, L, L, L, L, L, L, L, L, L, L, L, L, L, L, L, L,
    L, L, L, L, L, L, L, L, L, L, L, L, L, L, T, L, L, L, L, L, T, 0, 0, 0, 0, 0, 0, 0, 0, 0, 0, 0};

/* All characters of more than one byte: from and to for each byte, and the classes; in the order of the bytes. The first row of a first
 * byte has its place noted. */
struct row {
    uint8_t from[4], to[4], classes;
};

static const struct row rows[] = {
    {{0xC2, 0x80}, {0xC2, 0xB6}, T}, /* 0 */
    {{0xC2, 0xB7}, {0xC2, 0xB7}, N},
    {{0xC2, 0xB8}, {0xC2, 0xBF}, T},
    {{0xC3, 0x80}, {0xC3, 0x96}, L}, /* 3 */
    {{0xC3, 0x97}, {0xC3, 0x97}, T},
    {{0xC3, 0x98}, {0xC3, 0xB6}, L},
    {{0xC3, 0xB7}, {0xC3, 0xB7}, T},
    {{0xC3, 0xB8}, {0xC3, 0xBF}, L},
    {{0xC4, 0x80}, {0xCB, 0xBF}, L}, /* 8 */
    {{0xCC, 0x80}, {0xCC, 0xBF}, N}, /* 9 */
    {{0xCD, 0x80}, {0xCD, 0xAF}, N}, /* 10 */
    {{0xCD, 0xB0}, {0xCD, 0xBD}, L},
    {{0xCD, 0xBE}, {0xCD, 0xBE}, T},
    {{0xCD, 0xBF}, {0xCD, 0xBF}, L},
    {{0xCE, 0x80}, {0xDF, 0xBF}, L}, /* 14 */
    {{0xE0, 0xA0, 0x80}, {0xE0, 0xBF, 0xBF}, L}, /* 15 */
    {{0xE1, 0x80, 0x80}, {0xE1, 0xBF, 0xBF}, L}, /* 16 */
    {{0xE2, 0x80, 0x80}, {0xE2, 0x80, 0x8B}, T}, /* 17 */
    {{0xE2, 0x80, 0x8C}, {0xE2, 0x80, 0x8D}, L},
    {{0xE2, 0x80, 0x8E}, {0xE2, 0x80, 0xBE}, T},
    {{0xE2, 0x80, 0xBF}, {0xE2, 0x80, 0xBF}, N},
    {{0xE2, 0x81, 0x80}, {0xE2, 0x81, 0x80}, N},
    {{0xE2, 0x81, 0x81}, {0xE2, 0x81, 0xAF}, T},
    {{0xE2, 0x81, 0xB0}, {0xE2, 0x81, 0xBF}, L},
    {{0xE2, 0x82, 0x80}, {0xE2, 0x85, 0xBF}, L},
    {{0xE2, 0x86, 0x80}, {0xE2, 0x86, 0x8F}, L},
    {{0xE2, 0x86, 0x90}, {0xE2, 0x86, 0xBF}, T},
    {{0xE2, 0x87, 0x80}, {0xE2, 0xAF, 0xBF}, T},
    {{0xE2, 0xB0, 0x80}, {0xE2, 0xBE, 0xBF}, L},
    {{0xE2, 0xBF, 0x80}, {0xE2, 0xBF, 0xAF}, L},
    {{0xE2, 0xBF, 0xB0}, {0xE2, 0xBF, 0xBF}, T},
    {{0xE3, 0x80, 0x80}, {0xE3, 0x80, 0x80}, T}, /* 31 */
    {{0xE3, 0x80, 0x81}, {0xE3, 0x80, 0xBF}, L},
    {{0xE3, 0x81, 0x80}, {0xE3, 0xBF, 0xBF}, L},
    {{0xE4, 0x80, 0x80}, {0xEC, 0xBF, 0xBF}, L}, /* 34 */
    {{0xED, 0x80, 0x80}, {0xED, 0x9F, 0xBF}, L}, /* 35 */
    {{0xEE, 0x80, 0x80}, {0xEE, 0xBF, 0xBF}, T}, /* 36 */
    {{0xEF, 0x80, 0x80}, {0xEF, 0xA3, 0xBF}, T}, /* 37 */
    {{0xEF, 0xA4, 0x80}, {0xEF, 0xB6, 0xBF}, L},
    {{0xEF, 0xB7, 0x80}, {0xEF, 0xB7, 0x8F}, L},
    {{0xEF, 0xB7, 0x90}, {0xEF, 0xB7, 0xAF}, T},
    {{0xEF, 0xB7, 0xB0}, {0xEF, 0xB7, 0xBF}, L},
    {{0xEF, 0xB8, 0x80}, {0xEF, 0xBE, 0xBF}, L},
    {{0xEF, 0xBF, 0x80}, {0xEF, 0xBF, 0xBD}, L},
    {{0xF0, 0x90, 0x80, 0x80}, {0xF0, 0xBF, 0xBF, 0xBF}, L}, /* 44 */
    {{0xF1, 0x80, 0x80, 0x80}, {0xF2, 0xBF, 0xBF, 0xBF}, L}, /* 45 */
    {{0xF3, 0x80, 0x80, 0x80}, {0xF3, 0xAF, 0xBF, 0xBF}, L}, /* 46 */
    {{0xF3, 0xB0, 0x80, 0x80}, {0xF3, 0xBF, 0xBF, 0xBF}, T},
    {{0xF4, 0x80, 0x80, 0x80}, {0xF4, 0x8F, 0xBF, 0xBF}, T}, /* 48 */
    {{0xFF}, {0xFF}, 0}};

/* By the first byte, from 0xC2 on: its first row. */
static const uint8_t rows_from[] = {
    0, 3, 8, 8, 8, 8, 8, 8, 8, 8, 9, 10, 14, 14, 14, 14, 14, 14, 14, 14, 14, 14, 14, 14, 14, 14, 14, 14, 14, 14,
    15, 16, 17, 31, 34, 34, 34, 34, 34, 34, 34, 34, 34, 35, 36, 37, 44, 45, 45, 46, 48};
#undef L
#undef N
#undef T
#undef B

int bench_character(unsigned class, const uint8_t *bytes, size_t left)
{
    int length = bytes[0] < 0xE0 ? 2 : bytes[0] < 0xF0 ? 3 : 4, most = 1;
    for (const struct row *row = rows + rows_from[bytes[0] - 0xC2]; row->from[0] <= bytes[0]; row++) {
        int right = 1;
        if ((row->classes & class) == 0)
            continue;
        while (right < length && (size_t)right < left && row->from[right] <= bytes[right] && bytes[right] <= row->to[right])
            right++;
        if (right == length)
            return length;
        most = right > most ? right : most;
    }
    return -most;
}

static int longer_characters(unsigned first, unsigned later, const uint8_t *bytes, size_t length)
{
    unsigned class = first;
    for (size_t at = 0; at < length; class = later) {
        int character = 1;
        if ((bench_class[bytes[at]] & class) == 0)
            return 0;
        if (bytes[at] >= 0x80)
            character = bench_character(class, bytes + at, length - at);
        if (character < 0)
            return 0;
        at += (size_t)character;
    }
    return 1;
}

static int characters(unsigned first, unsigned later, const uint8_t *bytes, size_t length)
{
    if (length < 1 || length > 32)
        return 0;
    unsigned all = bench_class[bytes[0]] & first ? later : 0, any = bytes[0];
    for (size_t i = 1; i < length; i++) {
        all &= bench_class[bytes[i]];
        any |= bytes[i];
    }
    return any < 0x80 ? all != 0 : longer_characters(first, later, bytes, length);
}

int bench_name(const uint8_t *bytes, size_t length)
{
    return characters(NAME_FIRST, NAME_LATER, bytes, length);
}

int bench_text(const uint8_t *bytes, size_t length)
{
    return characters(TEXT_BYTE, TEXT_BYTE, bytes, length);
}
