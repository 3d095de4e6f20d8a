/* Calls with random and edge numbers, spare words that are not 0, NULL and rooms from 0 bytes on: hostile ROUNDS.
 * What a call is given ends, or begins, at a page that cannot be touched, so that a byte too many, read or written by
 * proved code too, ends the program by a signal. What a call must not write has to be as it was. Status 1 where it is
 * not, or where a code is none. The last line counts the codes. */
#include "guard.h"
#include "labels_of_test.h"
#include <stdio.h>

enum { MARK = 0x5a, CODES = LABELS_NOT_READ + 1, STRIDE = 256 };

static unsigned seed = 12345;
static long codes[CODES];

static unsigned next(void) {
    seed = seed * 1664525u + 1013904223u;
    return seed >> 8;
}

static int one_in(unsigned count) { return next() % count == 0; }

static uint32_t number(void) {
    static const uint32_t edges[] = {0,   1,   2,   3,   4,     7,     8,     9,          10,         11,        499,
                                     500, 501, 255, 256, 257,   65535, 65536, 65792,      0x7fffffff, 0x80000000u,
                                     0xffffffffu};
    return one_in(12) ? edges[next() % (sizeof edges / sizeof *edges)] : 1 + next() % 4;
}

static uint32_t flag(void) { return one_in(30) ? number() : next() % 2; }

static labels_options some_options(void) {
    labels_options options = {flag(), number(), number(), number(), number(), number(), flag(), {0}};
    if (one_in(30))
        options.reserved[next() % 5] = number();
    return options;
}

/* What a call is given, each in memory of its own. */
enum given { OPTIONS, DATA, LINE, OUT, MODULES, ANSWER, INFO, DOTS, GIVEN };

static void *memory(enum given what, size_t size, int value) {
    static char *first[GIVEN];
    first[what] = first[what] ? first[what] : guarded();
    return guard_at(first[what], size, !one_in(4), value);
}

static void stop(const char *call, const char *what) {
    printf("%s: %s\n", call, what);
    exit(1);
}

static void see_code(const char *call, int code, const labels_answer *answer) {
    if (code < 0 || code >= CODES)
        stop(call, "a code that is none");
    codes[code]++;
    if (!answer)
        return;
    if (answer->code != (uint32_t)code || answer->reserved != 0)
        stop(call, "another code in the answer, or a spare word that is not 0");
    if (answer->at && code != LABELS_BAD_OPTION && code != LABELS_NOT_A_DIGIT && code != LABELS_NOT_ASCII &&
        code != LABELS_BAD_SETTING && code != LABELS_BAD_ESCAPE)
        stop(call, "a place of what has none");
    if (answer->message_length != strlen(answer->message))
        stop(call, "a message without its end");
    if ((code == LABELS_OK) != (answer->message_length == 0))
        stop(call, "a message of what is drawn, or none of what is not");
}

/* Each byte from `first` on has to be as it was. */
static void see_untouched(const char *call, const char *room, size_t size, size_t first) {
    for (size_t i = first; i < size; i++)
        if (room[i] != MARK)
            stop(call, "a byte is written that must not be");
}

static void see_picture(const char *call, int code, const char *out, size_t room, const labels_answer *answer) {
    see_code(call, code, answer);
    if (code > LABELS_NO_ROOM)
        see_untouched(call, out, room, 0);
    if (code == LABELS_OK && answer)
        see_untouched(call, out, room, answer->length);
    if (code == LABELS_NO_ROOM && answer && answer->length <= room)
        stop(call, "there was room");
}

static void see_modules(const char *call, int code, const unsigned char *modules, size_t room,
                        const labels_answer *answer) {
    see_code(call, code, answer);
    see_untouched(call, (const char *)modules, room, LABELS_MAX_MODULES);
    for (size_t i = 0; code == LABELS_OK && answer && i < answer->length; i++)
        if (modules[i] > 1)
            stop(call, "a module is neither 0 nor 1");
}

/* Of a symbol that is not drawn nothing is told, and of data nothing is written after its NUL. */
static void see_info(const char *call, int code, const labels_symbol_info *info) {
    static const labels_symbol_info none;
    if (!info)
        return;
    if (code > LABELS_NO_ROOM && memcmp(info, &none, offsetof(labels_symbol_info, data) + 1) != 0)
        stop(call, "a symbol is told that is not drawn");
    if (info->data_length >= sizeof info->data || info->data[info->data_length] != 0)
        stop(call, "data without its end");
    if (code != LABELS_BAD_ARGUMENT)
        see_untouched(call, info->data, sizeof info->data, info->data_length + 1);
}

/* Of a bitmap nothing is written between its rows, nor behind the last one. */
static void see_bits(const char *call, int code, const char *bits, size_t stride, size_t room, const labels_dots *dots,
                     const labels_answer *answer) {
    see_code(call, code, answer);
    if (code != LABELS_OK)
        see_untouched(call, bits, room, 0);
    if (dots && (dots->reserved[0] || dots->reserved[1] || (code > LABELS_NO_ROOM && (dots->width || dots->height))))
        stop(call, "dots are told that are not drawn");
    if (code != LABELS_OK || !dots)
        return;
    size_t row = (dots->width + 7) / 8;
    stride = stride ? stride : row;
    if (row > stride || stride * (dots->height - 1) + row > room)
        stop(call, "there was no room");
    for (size_t y = 0; y < dots->height; y++)
        see_untouched(call, bits, y + 1 < dots->height ? stride * (y + 1) : room, stride * y + row);
    if (dots->width % 8 && bits[row - 1] & (0xff >> dots->width % 8))
        stop(call, "a dot behind the row");
}

/* What the calls of a round are given: options, data with its symbology, and a line. */
static struct {
    const labels_options *options;
    int symbology;
    const char *data, *line;
    size_t size, length;
} given;

static void give(void) {
    static char text[1300];
    labels_options *options = memory(OPTIONS, sizeof *options, 0);
    size_t size = one_in(20) ? 0 : next() % (one_in(20) ? 1200 : 40);
    char *data = memory(DATA, size, 0);
    *options = some_options();
    for (size_t i = 0; i < size; i++)
        data[i] = (char)(one_in(3) ? next() : '0' + next() % 10);
    int length = snprintf(text, sizeof text, "%s%s%.*s", symbologies[next() % SYMBOLOGIES],
                          one_in(9) ? ",height=7 " : " ", (int)size, data);
    if (one_in(10))
        text[next() % (unsigned)length] = (char)next();
    given.options = one_in(10) ? NULL : options;
    given.symbology = (int)(number() - (uint32_t)one_in(9));
    given.size = size;
    given.data = one_in(50) ? NULL : data;
    given.length = (size_t)length;
    given.line = memcpy(memory(LINE, given.length, 0), text, given.length);
}

/* A room that is just enough for so many bytes, one byte more or less, or any. */
static size_t some_room(size_t length) {
    if (one_in(6))
        return 0;
    return one_in(2) || length == 0 || length > GUARD_MOST / 2 ? next() % 4000 : length - 1 + next() % 3;
}

static labels_answer *some_answer(void) {
    labels_answer *answer = memory(ANSWER, sizeof *answer, MARK);
    return one_in(40) ? NULL : answer;
}

static void draw(int is_line) {
    labels_answer asked, *answer = some_answer();
    if (is_line)
        labels_draw_line(given.options, given.line, given.length, NULL, 0, &asked);
    else
        labels_draw(given.options, given.symbology, given.data, given.size, NULL, 0, &asked);
    size_t room = some_room(asked.length);
    char *out = memory(OUT, room, MARK), *to = one_in(50) ? NULL : out;
    int code = is_line ? labels_draw_line(given.options, given.line, given.length, to, room, answer)
                       : labels_draw(given.options, given.symbology, given.data, given.size, to, room, answer);
    see_picture(is_line ? "labels_draw_line" : "labels_draw", code, out, room, answer);
}

static void put_modules(int is_line) {
    const char *call = is_line ? "labels_line" : "labels_symbol";
    labels_answer asked, *answer = some_answer();
    labels_symbol_info *info = memory(INFO, sizeof *info, MARK), *told = one_in(20) ? NULL : info;
    if (is_line)
        labels_line(given.options, given.line, given.length, NULL, 0, NULL, &asked);
    else
        labels_symbol(given.options, given.symbology, given.data, given.size, NULL, 0, NULL, &asked);
    size_t room = some_room(asked.length);
    unsigned char *modules = memory(MODULES, room, MARK), *to = one_in(50) ? NULL : modules;
    int code = is_line
                   ? labels_line(given.options, given.line, given.length, to, room, told, answer)
                   : labels_symbol(given.options, given.symbology, given.data, given.size, to, room, told, answer);
    see_modules(call, code, modules, room, answer);
    see_info(call, code, told);
}

static void put_bits(int is_line) {
    labels_answer asked, *answer = some_answer();
    labels_dots *dots = memory(DOTS, sizeof *dots, MARK), *sized = one_in(20) ? NULL : dots;
    size_t stride = one_in(30) ? (size_t)-1 >> next() % 64 : next() % 200;
    if (is_line)
        labels_bitmap_line(given.options, given.line, given.length, NULL, stride, 0, NULL, &asked);
    else
        labels_bitmap(given.options, given.symbology, given.data, given.size, NULL, stride, 0, NULL, &asked);
    size_t room = some_room(asked.length);
    unsigned char *bits = memory(OUT, room, MARK), *to = one_in(50) ? NULL : bits;
    int code = is_line ? labels_bitmap_line(given.options, given.line, given.length, to, stride, room, sized, answer)
                       : labels_bitmap(given.options, given.symbology, given.data, given.size, to, stride, room, sized,
                                       answer);
    see_bits(is_line ? "labels_bitmap_line" : "labels_bitmap", code, (char *)bits, stride, room, sized, answer);
}

/* Dots as they are drawn are read as what they say, and with one other dot as that or as nothing. */
static void read_back(void) {
    static unsigned char bits[256 * STRIDE];
    static char digits[8 * sizeof bits];
    labels_options options = LABELS_DEFAULTS;
    labels_answer *answer = some_answer();
    labels_symbol_info info;
    labels_dots dots;
    int symbology = (int)(next() % SYMBOLOGIES);
    const char *text = data_of_labels[next() % LABELS_OF_TEST];
    options.scale = 1 + next() % 3;
    options.height = 1 + next() % 3;
    labels_bitmap(&options, symbology, text, strlen(text), bits, STRIDE, sizeof bits, &dots, NULL);
    size_t size = put_digits(bits, STRIDE, &dots, digits); /* none where there is no symbol */
    labels_symbol(&options, symbology, text, strlen(text), NULL, 0, &info, NULL);
    char *read = memcpy(memory(DATA, size, 0), digits, size);
    int is_changed = size && one_in(3);
    if (is_changed)
        read[next() % size] ^= one_in(4) ? 2 : 1;
    size_t room = some_room(info.data_length);
    char *out = memory(OUT, room, MARK);
    uint32_t scale = one_in(20) ? 0 : options.scale;
    int code = labels_read(symbology, scale, read, dots.width, dots.height, out, room, answer);
    see_picture("labels_read", code, out, room, answer);
    int is_read = size && !is_changed, wanted = info.data_length <= room ? LABELS_OK : LABELS_NO_ROOM;
    /* The changed dot may be a remainder module, which is not looked at. */
    int has_remainder = symbology == LABELS_QR && options.scale == 1 && info.version >= 2 && info.version <= 6;
    if (code != (scale == 0 ? LABELS_BAD_OPTION : is_read ? wanted : LABELS_NOT_READ) &&
        !(has_remainder && is_changed && code == wanted))
        stop("labels_read", "another code");
    if (code <= LABELS_NO_ROOM && memcmp(out, info.data, room < info.data_length ? room : info.data_length) != 0)
        stop("labels_read", "other data");
    if (code <= LABELS_NO_ROOM && answer && answer->length != info.data_length)
        stop("labels_read", "another length");
}

/* Sees what was read of a symbol: its data, where it is whole. */
static void see_data(const char *call, int code, const char *out, size_t room, const labels_symbol_info *info,
                     const labels_answer *answer) {
    see_picture(call, code, out, room, answer);
    if (code != (info->data_length == 0 ? LABELS_NOT_READ : info->data_length <= room ? LABELS_OK : LABELS_NO_ROOM))
        stop(call, "another code");
    if (memcmp(out, info->data, room < info->data_length ? room : info->data_length) != 0)
        stop(call, "other data");
    if (answer && answer->length != info->data_length)
        stop(call, "another length");
}

/* The modules of a symbol are read as what it says. */
static void read_modules_back(void) {
    static unsigned char modules[LABELS_MAX_MODULES];
    int symbology = (int)(next() % SYMBOLOGIES);
    const char *text = data_of_labels[next() % LABELS_OF_TEST];
    labels_answer *answer = some_answer();
    labels_symbol_info info;
    labels_symbol(NULL, symbology, text, strlen(text), modules, sizeof modules, &info, NULL);
    size_t size = (size_t)info.width * info.rows, room = some_room(info.data_length);
    char *read = memcpy(memory(MODULES, size, 0), modules, size), *out = memory(OUT, room, MARK);
    see_data("labels_read_modules", labels_read_modules(symbology, read, info.width, info.rows, out, room, answer), out,
             room, &info, answer);
}

/* Puts a dot into a picture of bits, in which `dark` is the bit that is dark. */
static void put_dot(char *bits, const labels_region *region, size_t x, size_t y, int is_dark) {
    char *byte = bits + (region->top + y) * region->stride + (region->left + x) / 8;
    char bit = (char)(128 >> (region->left + x) % 8);
    *byte = (char)(is_dark == (int)region->dark ? *byte | bit : *byte & ~bit);
}

/* A symbol anywhere in a picture of any other bits is found as what it is, and read as what it says. */
static void find_back(void) {
    static unsigned char bits[256 * STRIDE];
    labels_options options = LABELS_DEFAULTS;
    labels_answer *answer = some_answer();
    labels_symbol_info info;
    labels_dots dots;
    labels_found found;
    int symbology = (int)(next() % SYMBOLOGIES);
    const char *text = data_of_labels[next() % LABELS_OF_TEST];
    options.scale = 1 + next() % 3;
    options.height = 1 + next() % 3;
    labels_bitmap(&options, symbology, text, strlen(text), bits, STRIDE, sizeof bits, &dots, NULL);
    labels_symbol(&options, symbology, text, strlen(text), NULL, 0, &info, NULL);
    labels_region region = {0, next() % 20, next() % 4, dots.width, dots.height, next() % 2, {0}};
    size_t end = (region.left + region.width + 7) / 8;
    region.stride = end + next() % 3;
    size_t size = (region.top + region.height ? region.top + region.height - 1 : 0) * region.stride + end;
    char *read = memory(DATA, size, 0);
    for (size_t i = 0; i < size; i++)
        read[i] = (char)next();
    for (size_t y = 0; y < dots.height; y++)
        for (size_t x = 0; x < dots.width; x++)
            put_dot(read, &region, x, y, bits[y * STRIDE + x / 8] >> (7 - x % 8) & 1);
    size_t room = some_room(info.data_length);
    char *out = memory(OUT, room, MARK);
    int code = labels_read_bits(&region, read, size, one_in(9) ? NULL : &found, out, room, answer);
    see_data("labels_read_bits", code, out, room, &info, answer);
    labels_read_bits(&region, read, size, &found, out, room, NULL);
    if (code <= LABELS_NO_ROOM && (found.symbology != (uint32_t)symbology || found.scale != options.scale || found.turns))
        stop("labels_read_bits", "found as another");
    if (code > LABELS_NO_ROOM && (found.symbology || found.scale || found.turns || found.reserved[4]))
        stop("labels_read_bits", "found where nothing is read");
}

/* Any region of any bits. */
static void find_any(void) {
    labels_answer *answer = some_answer();
    labels_region region = {next() % 40, number() - 1, number() - 1, number() * 9, number(), flag(), {0}};
    if (one_in(30))
        region.reserved[next() % 3] = number();
    size_t size = one_in(9) ? 0 : next() % 900, room = some_room(0);
    char *bits = memory(DATA, size, 0), *out = memory(OUT, room, MARK);
    for (size_t i = 0; i < size; i++)
        bits[i] = (char)next();
    int code = labels_read_bits(one_in(50) ? NULL : &region, bits, size, NULL, out, room, answer);
    see_picture("labels_read_bits", code, out, room, answer);
    if (code <= LABELS_NO_ROOM)
        stop("labels_read_bits", "data of any bits");
}

/* Dots of any digits, sides, scale and symbology. */
static void read_any(void) {
    labels_answer *answer = some_answer();
    uint32_t width = one_in(20) ? number() : next() % 200, height = one_in(20) ? number() : next() % 20;
    int is_large = width > 4000 || height > 4000;
    size_t size = is_large ? 0 : (size_t)width * height, room = some_room(0);
    if (size > GUARD_MOST)
        return;
    char *dots = memory(DATA, size, '0'), *out = memory(OUT, room, MARK);
    for (size_t i = 0; i < size; i++)
        dots[i] = (char)('0' + one_in(2));
    int code = labels_read((int)(number() - 1), number(), is_large ? NULL : dots, width, height, out, room, answer);
    see_picture("labels_read", code, out, room, answer);
    if (code <= LABELS_NO_ROOM)
        stop("labels_read", "data of any dots");
}

int main(int count, char **words) {
    long rounds = count > 1 ? atol(words[1]) : 1000;
    for (long i = 0; i < rounds; i++) {
        give();
        for (int is_line = 0; is_line < 2; is_line++) {
            draw(is_line);
            put_modules(is_line);
            put_bits(is_line);
        }
        read_back();
        read_any();
        read_modules_back();
        find_back();
        find_any();
    }
    for (int code = 0; code < CODES; code++)
        printf("%ld of %d%s", codes[code], code, code + 1 < CODES ? ", " : "\n");
    return 0;
}
