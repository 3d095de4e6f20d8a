/* What the test programs draw, and how they sum up what a call left. */
#ifndef LABELS_OF_TEST_H
#define LABELS_OF_TEST_H

#include "labels.h"
#include <stdint.h>
#include <string.h>

static const char *const symbologies[] = {"ean13", "ean8", "upca", "code128", "qr"};
enum { SYMBOLOGIES = sizeof symbologies / sizeof *symbologies };

static const char *const data_of_labels[] = {
    "4006381333931", "LOT-000123/Shelf 7b", "https://example.com/article/000123", "7351353",
    "HELLO WORLD",   "03600029145",         "12x",                                "",
};
enum { LABELS_OF_TEST = sizeof data_of_labels / sizeof *data_of_labels };

/* FNV-1a over words of eight bytes, since a sanitizer looks at each read. */
static inline uint64_t hash_of(const void *bytes, size_t size, uint64_t hash) {
    const unsigned char *at = bytes;
    while (size > 0) {
        uint64_t word = 0;
        size_t length = size < sizeof word ? size : sizeof word;
        memcpy(&word, at, length);
        hash = (hash ^ word) * UINT64_C(1099511628211);
        at += length;
        size -= length;
    }
    return hash;
}

/* Puts the dots of a bitmap as digits, as labels_read() takes them. Returns how many there are. */
static inline size_t put_digits(const unsigned char *bits, size_t stride, const labels_dots *dots, char *digits) {
    size_t count = 0;
    for (size_t y = 0; y < dots->height; y++)
        for (size_t x = 0; x < dots->width; x++)
            digits[count++] = (char)('0' + (bits[y * stride + x / 8] >> (7 - x % 8) & 1));
    return count;
}

#endif
