/* Reads random pictures by labels_read_bits() of two libraries, an older and a newer one: compare_reads OLD NEW COUNT
 *
 * The libraries are files such as out/liblabels.so.1.2.0 of two checkouts. The pictures are noise, and symbols of each
 * symbology, whole or with changes, turned, in a part of a larger picture, with either bit dark. The status is 1 where
 * the two answer otherwise, and 0 after COUNT pictures. To build it: gcc -O2 -I lib lib/tests/compare_reads.c -ldl */
#include "labels.h"
#include <dlfcn.h>
#include <stdio.h>
#include <stdlib.h>
#include <string.h>

/* The pictures have room for as many rows as columns, and for changes of their size. */
enum { STRIDE = 100, MOST = 8 * STRIDE, SPARE = 10, SIZE = (MOST + SPARE) * (STRIDE + SPARE) };

typedef int reader(const labels_region *, const void *, size_t, labels_found *, char *, size_t, labels_answer *);
typedef int drawer(const labels_options *, int, const char *, size_t, unsigned char *, size_t, size_t, labels_dots *,
                   labels_answer *);

/* What a call tells. */
struct told {
    int code;
    labels_found found;
    labels_answer answer;
    char data[LABELS_MAX_DATA];
};

static unsigned char bits[SIZE], other[SIZE];
static uint32_t width, height;

/* A random number below another. */
static uint32_t some(uint32_t below) {
    static uint64_t state = 88172645463325252;
    state ^= state << 13;
    state ^= state >> 7;
    state ^= state << 17;
    return (uint32_t)((state >> 20) % below);
}

static int is_dark(const unsigned char *from, uint32_t x, uint32_t y) {
    return from[y * STRIDE + x / 8] >> (7 - x % 8) & 1;
}

static void flip(unsigned char *into, uint32_t x, uint32_t y) {
    into[y * STRIDE + x / 8] ^= (unsigned char)(0x80 >> x % 8);
}

/* Dots of which one in some is dark, as many in a column as in a row every other time. */
static void draw_noise(void) {
    const uint32_t one_in = 1 + some(40);
    width = 1 + some(80);
    height = some(2) == 0 ? width : 1 + some(80);
    for (uint32_t y = 0; y < height; y++)
        for (uint32_t x = 0; x < width; x++)
            if (some(one_in) == 0)
                flip(bits, x, y);
}

/* A symbol of random data and options; nothing where the data is too long. */
static void draw_symbol(drawer *draw, int symbology) {
    static const int digits[] = {12, 7, 11, 0, 0};
    const int length = digits[symbology] > 0 ? digits[symbology] : 1 + (int)some(12);
    labels_options options = LABELS_DEFAULTS;
    labels_dots dots = {0};
    char data[12];
    for (int i = 0; i < length; i++)
        data[i] = (char)(digits[symbology] > 0 || some(3) == 0 ? '0' + some(10) : ' ' + some(95));
    options.scale = 1 + some(some(2) == 0 ? 2 : 4);
    options.height = 1 + some(30);
    options.level = some(4);
    options.mask = some(9) == 0 ? LABELS_MASK_AUTO : some(8);
    options.min_version = 1 + some(some(2) == 0 ? 2 : 10);
    const int code = draw(&options, symbology, data, (size_t)length, bits, STRIDE, MOST * STRIDE, &dots, NULL);
    width = code == LABELS_OK ? dots.width : 0;
    height = code == LABELS_OK ? dots.height : 0;
}

/* Gives the upper left third of a square to the lower right too, turned by half a turn. */
static void put_corner(void) {
    for (uint32_t y = 0; y < height / 3 && width == height; y++)
        for (uint32_t x = 0; x < width / 3; x++)
            if (is_dark(bits, x, y) != is_dark(bits, width - 1 - x, height - 1 - y))
                flip(bits, width - 1 - x, height - 1 - y);
}

/* Changes some dots, a row of dots, or the size. */
static void change(void) {
    const uint32_t row = some(height);
    for (uint32_t dots = some(4); dots > 0; dots--)
        flip(bits, some(width), some(height));
    for (uint32_t x = 0; some(4) == 0 && x < width; x++)
        if (some(4) == 0)
            flip(bits, x, row);
    width += some(4) == 0 ? some(3) : 0;
    height += some(4) == 0 ? some(3) : 0;
}

/* Turns the picture by a quarter turn against the clock. */
static void turn(void) {
    const uint32_t side = width;
    memset(other, 0, sizeof other);
    for (uint32_t y = 0; y < height; y++)
        for (uint32_t x = 0; x < width; x++)
            if (is_dark(bits, x, y))
                flip(other, y, width - 1 - x);
    memcpy(bits, other, sizeof bits);
    width = height;
    height = side;
}

/* Moves the picture into noise. */
static void move(uint32_t left, uint32_t top) {
    for (size_t i = 0; i < sizeof other; i++)
        other[i] = (unsigned char)some(256);
    for (uint32_t y = 0; y < height; y++)
        for (uint32_t x = 0; x < width; x++)
            if (is_dark(other, left + x, top + y) != is_dark(bits, x, y))
                flip(other, left + x, top + y);
    memcpy(bits, other, sizeof bits);
}

static void draw_some(drawer *draw) {
    const uint32_t kind = some(10);
    memset(bits, 0, sizeof bits);
    if (kind == 0) {
        draw_noise();
    } else {
        draw_symbol(draw, (int)(some(2) == 0 ? LABELS_QR : some(LABELS_QR)));
        if (kind == 1)
            put_corner();
        if (kind < 5 && width > 0 && width < MOST - SPARE)
            change();
    }
    for (uint32_t turns = some(4); turns > 0; turns--)
        turn();
}

static struct told read_by(reader *read, const labels_region *region, size_t room) {
    struct told told;
    memset(&told, 0, sizeof told);
    told.code = read(region, bits, sizeof bits, &told.found, told.data, room, &told.answer);
    return told;
}

static void *named(const char *library, const char *name) {
    void *opened = dlopen(library, RTLD_NOW | RTLD_LOCAL);
    void *found = opened == NULL ? NULL : dlsym(opened, name);
    if (found == NULL) {
        fprintf(stderr, "%s\n", dlerror());
        exit(2);
    }
    return found;
}

int main(int count, char **words) {
    if (count != 4)
        return 2;
    reader *old = (reader *)named(words[1], "labels_read_bits");
    reader *new = (reader *)named(words[2], "labels_read_bits");
    drawer *draw = (drawer *)named(words[1], "labels_bitmap");
    const long pictures = atol(words[3]);
    long symbols = 0, turned = 0;
    for (long i = 0; i < pictures; i++) {
        const uint32_t left = some(2) == 0 ? 0 : some(9), top = some(3), dark = some(8) != 0;
        draw_some(draw);
        if (width + left > MOST || height + top > MOST)
            continue;
        move(left, top);
        for (size_t place = 0; dark == 0 && place < sizeof bits; place++)
            bits[place] ^= 0xFF;
        const labels_region region = {STRIDE, left, top, width, height, dark, {0}};
        const size_t room = some(20) == 0 ? some(6) : LABELS_MAX_DATA;
        const struct told was = read_by(old, &region, room), is = read_by(new, &region, room);
        if (memcmp(&was, &is, sizeof was) != 0) {
            printf("picture %ld is read otherwise: code %d, and %d\n", i, was.code, is.code);
            return 1;
        }
        symbols += is.code == LABELS_OK;
        turned += is.code == LABELS_OK && is.found.turns > 0;
    }
    printf("%ld pictures, %ld of them symbols, %ld turned: the same answers\n", pictures, symbols, turned);
    return 0;
}
