/* Reads a picture once, for callgrind to count the instructions: read_cost PICTURE SIDE [each]
 *
 * The picture is SIDE by SIDE dots; of one of a symbol SIDE is the scale instead. It prints the code of the call, and the
 * dots. With `each` the picture is read at each scale by each symbology instead, as labels_read() does it. */
#include "labels_of_test.h"
#include <stdio.h>
#include <stdlib.h>

enum { MOST = 1024, STRIDE = MOST / 8 };
/* Bytes that only version 10 has room for. */
#define TEN "abcdefghij"
#define LARGE TEN TEN TEN TEN TEN TEN TEN TEN TEN TEN TEN TEN TEN TEN TEN TEN TEN TEN TEN TEN TEN

static unsigned char bits[MOST * STRIDE], turned[MOST * STRIDE];
static char digits[MOST * MOST], out[LABELS_MAX_DATA];
static uint32_t width, height;

static int is_dark(const unsigned char *from, uint32_t x, uint32_t y) {
    return from[y * STRIDE + x / 8] >> (7 - x % 8) & 1;
}

static void put_dark(unsigned char *into, uint32_t x, uint32_t y) {
    into[y * STRIDE + x / 8] |= (unsigned char)(0x80 >> x % 8);
}

static unsigned noise(void) {
    static unsigned seed = 12345;
    seed = seed * 1664525u + 1013904223u;
    return seed >> 16;
}

/* Whether a dot of a picture without a symbol is dark. */
static int in_picture(const char *name, uint32_t x, uint32_t y) {
    uint32_t middle = width / 2, last = width - 1;
    return strcmp(name, "row") == 0       ? y == middle
           : strcmp(name, "column") == 0  ? x == middle
           : strcmp(name, "dot") == 0     ? x == middle && y == middle
           : strcmp(name, "last") == 0    ? x == last && y == last
           : strcmp(name, "corner") == 0  ? x == 0 && y == last
           : strcmp(name, "dark") == 0    ? 1
           : strcmp(name, "rows") == 0    ? y % 2 == 0
           : strcmp(name, "columns") == 0 ? x % 2 == 0
           : strcmp(name, "squares") == 0 ? (x + y) % 2 == 0
           : strcmp(name, "noise") == 0   ? noise() % 2 == 0
           : strcmp(name, "below") == 0   ? y >= middle && noise() % 2 == 0
                                          : 0;
}

static void draw(int symbology, const char *data, uint32_t scale, uint32_t level, uint32_t mask) {
    labels_options options = LABELS_DEFAULTS;
    labels_dots dots;
    options.scale = scale;
    options.level = level;
    options.mask = mask;
    if (labels_bitmap(&options, symbology, data, strlen(data), bits, STRIDE, sizeof bits, &dots, NULL) != LABELS_OK)
        exit(2);
    width = dots.width;
    height = dots.height;
}

/* Turns the picture by a quarter turn against the clock. */
static void turn(void) {
    memset(turned, 0, sizeof turned);
    for (uint32_t y = 0; y < height; y++)
        for (uint32_t x = 0; x < width; x++)
            if (is_dark(bits, x, y))
                put_dark(turned, y, width - 1 - x);
    memcpy(bits, turned, sizeof bits);
    uint32_t side = width;
    width = height;
    height = side;
}

/* Puts a finder pattern into the corner of a QR symbol that has none: each direction begins as one that is read. */
static void put_finder(uint32_t scale) {
    uint32_t first = 4 * scale, size = 7 * scale;
    for (uint32_t y = first; y < first + size; y++)
        for (uint32_t x = first; x < first + size; x++) {
            uint32_t right = width - 1 - x, below = height - 1 - y;
            bits[below * STRIDE + right / 8] &= (unsigned char)~(0x80 >> right % 8);
            if (is_dark(bits, x, y))
                put_dark(bits, right, below);
        }
}

/* Whether version 1 fixes a module near its upper left corner, or in one of its timing patterns. */
static int is_fixed(uint32_t x, uint32_t y) {
    return (x < 9 && y < 9) || (x == 6 && 8 < y && y < 12) || (y == 6 && 8 < x && x < 12);
}

/* Gives a QR symbol of version 1, level L and mask 0 the corner of its upper left in each corner, and a timing pattern on
 * each side: the format information of that level and mask fits all of this, so every module that is fixed in one
 * direction is right in each. Only the codewords are wrong. */
static void put_corners(uint32_t scale) {
    memcpy(turned, bits, sizeof bits);
    for (uint32_t y = 0; y < 21 * scale; y++)
        for (uint32_t x = 0; x < 21 * scale; x++) {
            uint32_t column = x / scale, row = y / scale;
            for (int turns = 0; turns < 4 && !is_fixed(column, row); turns++) {
                uint32_t old = column;
                column = row;
                row = 20 - old;
            }
            uint32_t place = 4 * scale + x, line = 4 * scale + y;
            bits[line * STRIDE + place / 8] &= (unsigned char)~(0x80 >> place % 8);
            if (is_dark(turned, (4 + column) * scale, (4 + row) * scale))
                put_dark(bits, place, line);
        }
}

int main(int count, char **words) {
    if (count < 3)
        return 2;
    const char *name = words[1];
    const uint32_t side = (uint32_t)atoi(words[2]);
    width = height = side;
    if (strncmp(name, "ean8-", 5) == 0)
        draw(LABELS_EAN8, "7351353", side, LABELS_LEVEL_M, LABELS_MASK_AUTO);
    else if (strcmp(name, "qr-corners") == 0)
        draw(LABELS_QR, "HELLO", side, LABELS_LEVEL_L, 0);
    else if (strncmp(name, "qr-", 3) == 0)
        draw(LABELS_QR, "HELLO", side, LABELS_LEVEL_M, LABELS_MASK_AUTO);
    else if (strncmp(name, "large-", 6) == 0)
        draw(LABELS_QR, LARGE, side, LABELS_LEVEL_M, LABELS_MASK_AUTO);
    else
        for (uint32_t y = 0; y < height; y++)
            for (uint32_t x = 0; x < width; x++)
                if (in_picture(name, x, y))
                    put_dark(bits, x, y);
    if (strcmp(name, "qr-finders") == 0)
        put_finder(side);
    if (strcmp(name, "qr-corners") == 0)
        put_corners(side);
    if (strstr(name, "-spot") != NULL)
        put_dark(bits, width - 1, height - 1);
    for (int turns = atoi(name + strcspn(name, "123")); turns > 0; turns--)
        turn();
    labels_dots dots = {width, height, {0}};
    put_digits(bits, STRIDE, &dots, digits);
    labels_region region = {STRIDE, 0, 0, width, height, 1, {0}};
    int code = LABELS_NOT_READ;
    if (count == 3)
        code = labels_read_bits(&region, bits, sizeof bits, NULL, out, sizeof out, NULL);
    else
        for (uint32_t scale = 1; scale <= width; scale++)
            for (int symbology = 0; symbology < 5; symbology++)
                labels_read(symbology, scale, digits, width, height, out, sizeof out, NULL);
    printf("%d %u\n", code, width * height);
    return 0;
}
