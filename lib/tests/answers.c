/* What no other test looks at: which option and which region is none, where bars are longer and digits are printed, and
 * the names and numbers of the header. Status 1, with the line, where one of them is another. */
#include "labels.h"
#include <stdio.h>
#include <stdlib.h>
#include <string.h>

#define SEE(fact) see(fact, #fact, __LINE__)

static void see(int fact, const char *text, int line) {
    if (fact)
        return;
    printf("line %d: not so: %s\n", line, text);
    exit(1);
}

/* Each option is out of its range in turn, and the last spare word with it. */
static void the_first_wrong_option_is_told(void) {
    enum { WORDS = sizeof(labels_options) / sizeof(uint32_t), NAMED = 7 };
    for (size_t wrong = 0; wrong < WORDS; wrong++) {
        labels_options options = LABELS_DEFAULTS;
        labels_answer answer;
        uint32_t words[WORDS];
        size_t at = (wrong < NAMED ? wrong : NAMED) + 1;
        memcpy(words, &options, sizeof options);
        words[wrong] = words[WORDS - 1] = 1000;
        memcpy(&options, words, sizeof options);
        SEE(labels_draw(&options, LABELS_EAN8, "7351353", 7, NULL, 0, &answer) == LABELS_BAD_OPTION);
        SEE(answer.at == at);
        SEE(labels_line(&options, "ean8 7351353", 12, NULL, 0, NULL, &answer) == LABELS_BAD_OPTION);
        SEE(answer.at == at);
    }
}

/* What a call says of default options of which one word is another. */
static int code_with(size_t word, uint32_t number, labels_answer *answer) {
    labels_options options = LABELS_DEFAULTS;
    uint32_t words[sizeof options / sizeof(uint32_t)];
    memcpy(words, &options, sizeof options);
    words[word] = number;
    memcpy(&options, words, sizeof options);
    return labels_draw(&options, LABELS_EAN8, "7351353", 7, NULL, 0, answer);
}

/* The message names the option, and what it may be: the first and the last such number are taken, those beside are not. */
static void the_wrong_option_is_named(void) {
    static const char *const names[] = {"format", "scale", "height", "level", "min_version", "mask", "escapes"};
    labels_answer answer;
    for (size_t option = 0; option < sizeof names / sizeof *names; option++) {
        char name[16];
        unsigned lowest, highest;
        SEE(code_with(option, 1000, &answer) == LABELS_BAD_OPTION);
        SEE(sscanf(answer.message, "%15s has to be %u %*[tor] %u", name, &lowest, &highest) == 3);
        SEE(strcmp(name, names[option]) == 0);
        SEE(code_with(option, lowest, &answer) == LABELS_NO_ROOM);
        SEE(code_with(option, highest, &answer) == LABELS_NO_ROOM);
        SEE(code_with(option, lowest - 1, &answer) == LABELS_BAD_OPTION);
        SEE(code_with(option, highest + 1, &answer) == LABELS_BAD_OPTION);
    }
    SEE(code_with(sizeof names / sizeof *names, 1, &answer) == LABELS_BAD_OPTION);
    SEE(strcmp(answer.message, "reserved words have to be 0") == 0);
}

static void the_defaults_are_set(void) {
    const labels_options wanted = LABELS_DEFAULTS;
    labels_options options;
    memset(&options, 9, sizeof options);
    labels_defaults(&options);
    SEE(memcmp(&options, &wanted, sizeof wanted) == 0);
    labels_defaults(NULL);
}

/* What comes of a region of a picture of four rows of 22 bytes, in which nothing is dark. */
static int read_of(labels_region region, size_t size) {
    static const unsigned char bits[4 * 22];
    return labels_read_bits(&region, bits, size, NULL, NULL, 0, NULL);
}

static void a_wrong_region_is_refused(void) {
    const size_t end = 3 * 22 + 21;
    const labels_region right = {22, 4, 2, 162, 2, 1, {0, 0, 0}};
    labels_region short_stride = right, other_dark = right, spare_word = right;
    short_stride.stride = 20;
    other_dark.dark = 2;
    spare_word.reserved[2] = 1;
    SEE(read_of(right, end) == LABELS_NOT_READ);
    SEE(read_of(right, end - 1) == LABELS_BAD_OPTION);
    SEE(read_of(short_stride, end) == LABELS_BAD_OPTION);
    SEE(read_of(other_dark, end) == LABELS_BAD_OPTION);
    SEE(read_of(spare_word, end) == LABELS_BAD_OPTION);
}

/* Widths in modules as ISO/IEC 15420 has them: the left quiet zone, guards of 3 and 5, and 7 a digit. */
static void see_layout(int symbology, uint32_t zone, uint32_t digits, uint32_t beside) {
    const uint32_t half = zone + 3 + digits * 7, end = half + 5 + digits * 7;
    const uint32_t outer = symbology == LABELS_UPCA ? 7 : 0;
    labels_layout layout;
    memset(&layout, 9, sizeof layout);
    SEE(labels_symbology_layout(symbology, &layout) == LABELS_OK);
    SEE(layout.guards == 3 && layout.reserved[0] == 0 && layout.reserved[1] == 0);
    SEE(layout.guard[0].left == zone && layout.guard[0].right == zone + 3 + outer);
    SEE(layout.guard[1].left == half && layout.guard[1].right == half + 5);
    SEE(layout.guard[2].left == end - outer && layout.guard[2].right == end + 3);
    const labels_digits *left = &layout.group[beside], *right = left + 1;
    SEE(left->first == beside && left->span.left == zone + 3 + outer && left->span.right == half);
    SEE(left->last == right->first && right->span.left == half + 5 && right->span.right == end - outer);
    SEE((left->last - left->first) * 7 == left->span.right - left->span.left);
    SEE((right->last - right->first) * 7 == right->span.right - right->span.left);
    SEE(beside == 0 || (layout.group[0].first == 0 && layout.group[0].last == 1 && layout.group[0].span.right <= zone));
}

static void longer_bars_and_printed_digits_are_told(void) {
    static const labels_layout none;
    labels_layout layout;
    see_layout(LABELS_EAN13, 11, 6, 1);
    see_layout(LABELS_EAN8, 7, 4, 0);
    see_layout(LABELS_UPCA, 9, 6, 1);
    for (int symbology = LABELS_CODE128; symbology <= LABELS_QR + 1; symbology++) {
        memset(&layout, 9, sizeof layout);
        SEE(labels_symbology_layout(symbology, &layout) == (symbology > LABELS_QR ? LABELS_BAD_SYMBOLOGY : LABELS_OK));
        SEE(memcmp(&layout, &none, sizeof none) == 0);
    }
}

/* Each option and each number of a symbol by its name: quiet zones of ISO/IEC 15420 and 18004, a QR symbol of version 3
 * with 29 modules a side, and the mask of the lowest penalty. */
static void names_mean_what_they_say(void) {
    static unsigned char modules[LABELS_MAX_MODULES];
    labels_options options = LABELS_DEFAULTS;
    labels_symbol_info info;
    options.height = 30;
    labels_symbol(&options, LABELS_EAN13, "400638133393", 12, modules, sizeof modules, &info, NULL);
    SEE(info.symbology == LABELS_EAN13 && info.width == 95 && info.rows == 1 && info.height == 30);
    SEE(info.left == 11 && info.right == 7 && info.top == 0 && info.bottom == 0);
    SEE(info.data_length == 13 && strcmp(info.data, "4006381333931") == 0);
    options.level = LABELS_LEVEL_Q;
    options.min_version = 3;
    options.mask = 5;
    options.escapes = 1;
    labels_line(&options, "qr \\x48ELLO", 11, modules, sizeof modules, &info, NULL);
    SEE(info.symbology == LABELS_QR && info.width == 29 && info.rows == 29 && info.height == 29);
    SEE(info.left == 4 && info.right == 4 && info.top == 4 && info.bottom == 4);
    SEE(info.version == 3 && info.level == LABELS_LEVEL_Q && info.mask == 5 && strcmp(info.data, "HELLO") == 0);
    labels_line(NULL, "qr,level=Q HELLO", 16, modules, sizeof modules, &info, NULL);
    SEE(info.mask == 2);
    SEE(labels_level_named("L") == LABELS_LEVEL_L && labels_level_named("M") == LABELS_LEVEL_M);
    SEE(labels_level_named("Q") == LABELS_LEVEL_Q && labels_level_named("H") == LABELS_LEVEL_H);
}

/* A picture whose width has five digits and whose height has four takes all of its room. The largest symbols have as
 * many modules, and as much data, as the header says. */
static void the_header_is_right(void) {
    static unsigned char modules[LABELS_MAX_MODULES];
    char data[LABELS_MAX_DATA + 1];
    labels_options options = LABELS_DEFAULTS;
    labels_answer answer;
    labels_symbol_info info;
    labels_dots dots;
    unsigned major, minor, patch;
    options.scale = 8;
    options.height = 500;
    for (size_t i = 0; i < 80; i++)
        data[i] = i % 2 ? 'a' : '\1';
    labels_bitmap(&options, LABELS_CODE128, data, 80, NULL, 0, 0, &dots, NULL);
    labels_draw(&options, LABELS_CODE128, data, 80, NULL, 0, &answer);
    SEE(dots.width > 9999 && dots.height > 999 && answer.length == LABELS_PICTURE_ROOM(dots.width, dots.height));
    memset(data, '1', sizeof data);
    options.level = LABELS_LEVEL_L;
    for (size_t more = 0; more < 2; more++) {
        labels_symbol(&options, LABELS_QR, data, LABELS_MAX_DATA + more, modules, sizeof modules, &info, &answer);
        SEE(answer.code == (more ? LABELS_DOES_NOT_FIT : LABELS_OK));
        SEE(more || (answer.length == LABELS_MAX_MODULES && info.data_length == LABELS_MAX_DATA));
    }
    SEE(sscanf(LABELS_VERSION, "%u.%u.%u", &major, &minor, &patch) == 3);
    SEE(LABELS_VERSION_NUMBER == (major << 16 | minor << 8 | patch));
}

int main(void) {
    the_first_wrong_option_is_told();
    the_wrong_option_is_named();
    the_defaults_are_set();
    a_wrong_region_is_refused();
    longer_bars_and_printed_digits_are_told();
    names_mean_what_they_say();
    the_header_is_right();
    return 0;
}
