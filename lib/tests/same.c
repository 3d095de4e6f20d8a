/* Draws the lines of standard input by all calls, each under options of its own, reads its data back, and prints for
 * each line a number that sums up every byte, number, code and message that the calls gave. Two processors have to print
 * the same. */
#include "labels_of_test.h"
#include <stdio.h>

enum { ROOM = 1 << 20, LINE = 4096, STRIDE = 232 };

static char out[ROOM];
static unsigned char modules[LABELS_MAX_MODULES];

static labels_options options_of(unsigned number) {
    labels_options options = LABELS_DEFAULTS;
    options.format = number % 2;
    options.scale = 1 + number % 8;
    options.height = 1 + number % 37;
    options.level = number / 2 % 4;
    options.min_version = 1 + number % 11 % 10;
    options.mask = number % 9;
    options.escapes = number / 3 % 2;
    return options;
}

static uint64_t with_number(uint64_t number, uint64_t sum) { return hash_of(&number, sizeof number, sum); }

static uint64_t with_answer(int code, const labels_answer *answer, uint64_t sum) {
    sum = with_number((uint64_t)code, with_number(answer->length, with_number(answer->at, sum)));
    return hash_of(answer->message, answer->message_length, sum);
}

static uint64_t with_info(const labels_symbol_info *info, uint64_t sum) {
    sum = hash_of(info, offsetof(labels_symbol_info, data_length), with_number(info->data_length, sum));
    return hash_of(info->data, info->data_length, sum);
}

static size_t put(const labels_answer *answer, size_t room) { return answer->length < room ? answer->length : room; }

static uint64_t with_pictures(const labels_options *options, int symbology, const char *data, size_t size,
                              const char *line, size_t length, uint64_t sum) {
    labels_answer answer;
    int code = labels_draw(options, symbology, data, size, out, ROOM, &answer);
    sum = hash_of(out, put(&answer, ROOM), with_answer(code, &answer, sum));
    code = labels_draw_line(options, line, length, out, ROOM, &answer);
    return hash_of(out, put(&answer, ROOM), with_answer(code, &answer, sum));
}

static uint64_t with_modules(const labels_options *options, int symbology, const char *data, size_t size,
                             const char *line, size_t length, uint64_t sum) {
    labels_answer answer;
    labels_symbol_info info;
    int code = labels_symbol(options, symbology, data, size, modules, sizeof modules, &info, &answer);
    sum = hash_of(modules, put(&answer, sizeof modules), with_info(&info, with_answer(code, &answer, sum)));
    code = labels_line(options, line, length, modules, sizeof modules, &info, &answer);
    return hash_of(modules, put(&answer, sizeof modules), with_info(&info, with_answer(code, &answer, sum)));
}

/* Bits with a byte between the rows, which is left as it was. */
static uint64_t with_bits(const labels_options *options, int symbology, const char *data, size_t size,
                          const char *line, size_t length, uint64_t sum) {
    unsigned char *bits = (unsigned char *)out;
    labels_answer answer;
    labels_dots dots;
    labels_bitmap(options, symbology, data, size, NULL, 0, 0, &dots, &answer);
    size_t stride = dots.width / 8 + 2, room = stride * dots.height < ROOM ? stride * dots.height : ROOM;
    memset(bits, 7, room);
    int code = labels_bitmap(options, symbology, data, size, bits, stride, room, &dots, &answer);
    sum = with_number(dots.width, with_number(dots.height, with_answer(code, &answer, sum)));
    sum = hash_of(bits, room, sum);
    labels_bitmap_line(options, line, length, NULL, 0, 0, &dots, &answer);
    stride = dots.width / 8 + 2, room = stride * dots.height < ROOM ? stride * dots.height : ROOM;
    memset(bits, 7, room);
    code = labels_bitmap_line(options, line, length, bits, stride, room, &dots, &answer);
    sum = with_number(dots.width, with_number(dots.height, with_answer(code, &answer, sum)));
    return hash_of(bits, room, sum);
}

/* What is drawn of data, a dot for each module, read back. */
static uint64_t with_reading(int symbology, const char *data, size_t size, uint64_t sum) {
    static unsigned char bits[65 * STRIDE]; /* QR version 10 and its quiet zone */
    static char digits[8 * sizeof bits];
    labels_options options = LABELS_DEFAULTS;
    labels_dots dots;
    labels_answer answer;
    options.height = 1;
    labels_bitmap(&options, symbology, data, size, bits, STRIDE, sizeof bits, &dots, &answer);
    put_digits(bits, STRIDE, &dots, digits);
    int code = labels_read(symbology, 1, digits, dots.width, dots.height, out, ROOM, &answer);
    sum = hash_of(out, put(&answer, ROOM), with_answer(code, &answer, sum));
    labels_region region = {STRIDE, 0, 0, dots.width, dots.height, 1, {0}};
    labels_found found;
    code = labels_read_bits(&region, bits, sizeof bits, &found, out, ROOM, &answer);
    sum = hash_of(&found, sizeof found, with_answer(code, &answer, sum));
    return hash_of(out, put(&answer, ROOM), sum);
}

/* The symbology that a line begins with, QR where it begins with none. */
static int symbology_of(const char *line) {
    int symbology = 0;
    while (symbology < LABELS_QR && strncmp(line, symbologies[symbology], strlen(symbologies[symbology])) != 0)
        symbology++;
    return symbology;
}

int main(void) {
    static char line[LINE];
    unsigned number = 0;
    size_t length = 0;
    for (int byte = getchar(); byte != EOF; byte = getchar()) {
        if (byte != '\n') {
            if (length < LINE)
                line[length++] = (char)byte;
            continue;
        }
        labels_options options = options_of(number);
        const char *space = memchr(line, ' ', length);
        const char *data = space ? space + 1 : line;
        size_t size = length - (size_t)(data - line);
        int symbology = symbology_of(line);
        uint64_t sum = UINT64_C(14695981039346656037);
        sum = with_pictures(&options, symbology, data, size, line, length, sum);
        sum = with_modules(&options, symbology, data, size, line, length, sum);
        sum = with_bits(&options, symbology, data, size, line, length, sum);
        sum = with_reading(symbology, data, size, sum);
        printf("%u %016llx\n", number++, (unsigned long long)sum);
        length = 0;
    }
    return 0;
}
