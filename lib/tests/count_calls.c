/* Makes calls that draw a label, of liblabels and of other libraries, for callgrind to count.
 *
 * usage: count_calls [--time] [CALL SYMBOLOGY LEVEL DATA] ..
 *
 * Each call is made once, and then CALLS_COUNTED times, for which callgrind writes a file. Those with a picture write it to
 * standard output as `labels` does by default: plain PBM, one pixel a module, the quiet zone of the standard, bars 50
 * modules high. The libraries may choose other versions, segments and masks. With --time it prints the nanoseconds of a
 * call instead, the lowest of three times of at least TIMED nanoseconds. The status is 1 where a call fails.
 */
#include "labels.h"
#include <qrcodegen/qrcodegen.h>
#include <qrencode.h>
#include <stdio.h>
#include <string.h>
#include <time.h>
#include <unistd.h>
#include <valgrind/callgrind.h>
#include <zint.h>

enum { CALLS_COUNTED = 10, BAR_HEIGHT = 50, LINE_PIXELS = 70, ROOM = 1 << 20, TIMED = 50000000, TIMES = 3 };

/* A symbology: its number in labels.h and in zint.h, and the light modules that it has at its left, its right and above. */
struct symbology {
    const char *name;
    int labels, zint, left, right, above;
};

static const struct symbology symbologies[] = {
    {"ean13", LABELS_EAN13, BARCODE_EANX, 11, 7, 0},
    {"code128", LABELS_CODE128, BARCODE_CODE128, 10, 10, 0},
    {"qr", LABELS_QR, BARCODE_QRCODE, 4, 4, 4},
};

struct label {
    const struct symbology *symbology;
    const char *data;
    char line[1000];
    int level, has_picture;
};

static char room[ROOM];
static labels_answer answer;
static labels_symbol_info info;

static int by_symbol(const struct label *label) {
    return labels_symbol(NULL, label->symbology->labels, label->data, strlen(label->data), (unsigned char *)room, ROOM,
                         &info, &answer);
}

static int by_draw(const struct label *label) {
    return labels_draw(NULL, label->symbology->labels, label->data, strlen(label->data), room, ROOM, &answer);
}

/* The same picture as text and as bits, three pixels a module. */
static const labels_options of_scale_3 = {LABELS_PBM, 3, 50, LABELS_LEVEL_M, 1, LABELS_MASK_AUTO, 0, {0}};

static int by_draw_3(const struct label *label) {
    return labels_draw(&of_scale_3, label->symbology->labels, label->data, strlen(label->data), room, ROOM, &answer);
}
static int by_bitmap_3(const struct label *label) {
    enum { STRIDE = 128 };
    labels_dots dots;
    return labels_bitmap(&of_scale_3, label->symbology->labels, label->data, strlen(label->data), (unsigned char *)room,
                         STRIDE, ROOM, &dots, &answer);
}

/* Reads the same bits back. They are drawn once: the first call is not counted. */
static int by_read_bits_3(const struct label *label) {
    enum { STRIDE = 128 };
    static labels_region region = {STRIDE, 0, 0, 0, 0, 1, {0, 0, 0}};
    static const char *drawn;
    static char data[LABELS_MAX_DATA];
    labels_dots dots;
    if (drawn != label->data) {
        drawn = label->data;
        labels_bitmap(&of_scale_3, label->symbology->labels, label->data, strlen(label->data), (unsigned char *)room,
                      STRIDE, ROOM, &dots, &answer);
        region.width = dots.width;
        region.height = dots.height;
    }
    return labels_read_bits(&region, room, ROOM, NULL, data, sizeof data, &answer);
}

static int by_line(const struct label *label) {
    return labels_line(NULL, label->line, strlen(label->line), (unsigned char *)room, ROOM, &info, &answer);
}

/* Adds a row of digits, 70 on a line, `times` times: it is made once and copied. Returns the end of the text. */
static char *add_rows(char *end, const char *digits, int width, int times) {
    char *first = end;
    for (int x = 0; times > 0 && x < width; x += LINE_PIXELS) {
        int piece = width - x < LINE_PIXELS ? width - x : LINE_PIXELS;
        memcpy(end, digits + x, piece);
        end += piece;
        *end++ = '\n';
    }
    size_t length = end - first;
    for (int i = 1; i < times; i++, end += length)
        memcpy(end, first, length);
    return end;
}

/* Whether the module in column x and row y of a symbol is dark. */
typedef int is_dark(const void *symbol, int x, int y);

static int zint_is_dark(const void *symbol, int x, int y) {
    const struct zint_symbol *drawn = symbol;
    return (drawn->encoded_data[y][x / 8] >> (x % 8)) & 1;
}

static int qrencode_is_dark(const void *symbol, int x, int y) {
    const QRcode *drawn = symbol;
    return drawn->data[y * drawn->width + x] & 1;
}

static void write_picture(const struct symbology *kind, is_dark *dark, const void *symbol, int columns, int rows) {
    char digits[LABELS_MAX_BARS];
    int width = kind->left + columns + kind->right;
    int height = rows == 1 ? BAR_HEIGHT : 1;
    char *end = room + sprintf(room, "P1\n%d %d\n", width, rows * height + 2 * kind->above);
    memset(digits, '0', width);
    end = add_rows(end, digits, width, kind->above);
    for (int y = 0; y < rows; y++) {
        for (int x = 0; x < columns; x++)
            digits[kind->left + x] = '0' + dark(symbol, x, y);
        end = add_rows(end, digits, width, height);
    }
    memset(digits, '0', width);
    end = add_rows(end, digits, width, kind->above);
    if (write(STDOUT_FILENO, room, end - room) != end - room)
        perror("count_calls");
}

static int encode(struct zint_symbol *symbol, const struct label *label) {
    symbol->symbology = label->symbology->zint;
    symbol->option_1 = label->symbology->labels == LABELS_QR ? label->level + 1 : -1;
    symbol->show_hrt = 0;
    return ZBarcode_Encode(symbol, (const unsigned char *)label->data, 0) >= ZINT_ERROR;
}

/* One symbol serves all labels, as libzint's manual advises. */
static int by_zint_again(const struct label *label) {
    static struct zint_symbol *symbol;
    symbol = symbol ? symbol : ZBarcode_Create();
    int status = encode(symbol, label);
    if (label->has_picture)
        write_picture(label->symbology, zint_is_dark, symbol, symbol->width, symbol->rows);
    ZBarcode_Clear(symbol);
    return status;
}

static int by_qrencode(const struct label *label) {
    QRcode *symbol = QRcode_encodeString(label->data, 0, (QRecLevel)label->level, QR_MODE_8, 1);
    if (symbol && label->has_picture)
        write_picture(label->symbology, qrencode_is_dark, symbol, symbol->width, symbol->width);
    QRcode_free(symbol);
    return symbol ? 0 : 1;
}

static int by_qrcodegen(const struct label *label) {
    static uint8_t work[qrcodegen_BUFFER_LEN_MAX], code[qrcodegen_BUFFER_LEN_MAX];
    enum qrcodegen_Ecc level = (enum qrcodegen_Ecc)label->level;
    return !qrcodegen_encodeText(label->data, work, code, level, 1, 40, qrcodegen_Mask_AUTO, 0);
}

static const struct {
    const char *name;
    int (*make)(const struct label *);
    int has_picture;
} calls[] = {
    {"labels_symbol", by_symbol, 0},
    {"labels_draw", by_draw, 0},
    {"labels_draw, scale 3", by_draw_3, 0},
    {"labels_bitmap, scale 3", by_bitmap_3, 0},
    {"labels_read_bits, scale 3", by_read_bits_3, 0},
    {"labels_line", by_line, 0},
    {"libzint, no picture", by_zint_again, 0},
    {"libzint, picture", by_zint_again, 1},
    {"libqrencode", by_qrencode, 0},
    {"libqrencode, picture", by_qrencode, 1},
    {"qrcodegen", by_qrcodegen, 0},
};

static double now(void) {
    struct timespec time;
    clock_gettime(CLOCK_PROCESS_CPUTIME_ID, &time);
    return time.tv_sec * 1e9 + time.tv_nsec;
}

/* Returns the nanoseconds of a call. */
static double time_of(size_t call, const struct label *label) {
    double lowest = 1e18;
    for (int i = 0; i < TIMES; i++) {
        long made = 0;
        double start = now(), taken = 0;
        for (long more = 1; taken < TIMED; more *= 2) {
            for (long left = more; left > 0; left--)
                calls[call].make(label);
            made += more;
            taken = now() - start;
        }
        lowest = taken / made < lowest ? taken / made : lowest;
    }
    return lowest;
}

int main(int count, char **words) {
    static const char levels[] = "LMQH";
    int is_timed = count > 1 && strcmp(words[1], "--time") == 0;
    for (char **word = words + 1 + is_timed; word + 3 < words + count; word += 4) {
        size_t call = 0, kind = 0;
        while (strcmp(calls[call].name, word[0]) != 0)
            call++;
        while (strcmp(symbologies[kind].name, word[1]) != 0)
            kind++;
        int level = (int)(strchr(levels, *word[2]) - levels);
        struct label label = {&symbologies[kind], word[3], "", level, calls[call].has_picture};
        snprintf(label.line, sizeof label.line, "%s %s", word[1], word[3]);
        if (calls[call].make(&label) != 0)
            return 1;
        if (is_timed) {
            printf("%.1f\n", time_of(call, &label));
            continue;
        }
        CALLGRIND_ZERO_STATS;
        for (int left = CALLS_COUNTED; left > 0; left--)
            calls[call].make(&label);
        CALLGRIND_DUMP_STATS;
    }
    return 0;
}
