/* A target of libFuzzer: the first bytes of a case choose a call and its options, the others are what it is given, in
 * memory of just that size. fuzz.sh builds and runs it. Besides what the sanitizers see, it stops where a code is none,
 * where a symbol that was drawn is read as other data, and where dots are read that another symbol has. */
#include "labels.h"
#include <stdlib.h>
#include <string.h>

enum { HEAD = 24, ROOM = 1 << 17 };

static unsigned char bits[ROOM], again[ROOM];

static void stop_if(int is_wrong) {
    if (is_wrong)
        abort();
}

static void see(int code, const labels_answer *answer) {
    stop_if(code < 0 || code > LABELS_NOT_READ || answer->code != (uint32_t)code);
    stop_if(answer->message_length >= LABELS_MESSAGE_ROOM || answer->message[answer->message_length]);
}

/* Draws data, and reads it back; and once more with one dot of the wrong colour, by which it is not read as other data. */
static void draw_and_read(const labels_options *options, int symbology, const void *data, size_t size, uint32_t wrong) {
    labels_answer answer, answer_read;
    labels_dots dots;
    labels_found found;
    labels_symbol_info info;
    char out[LABELS_MAX_DATA], again_data[LABELS_MAX_DATA];
    unsigned char modules[LABELS_MAX_MODULES];
    see(labels_symbol(options, symbology, data, size, modules, sizeof modules, &info, &answer), &answer);
    int code = labels_bitmap(options, symbology, data, size, bits, 0, sizeof bits, &dots, &answer);
    see(code, &answer);
    if (code != LABELS_OK)
        return;
    labels_region region = {(dots.width + 7) / 8, 0, 0, dots.width, dots.height, 1, {0, 0, 0}};
    code = labels_read_bits(&region, bits, answer.length, &found, out, sizeof out, &answer_read);
    see(code, &answer_read);
    if (options->height % options->scale == 0 || symbology == LABELS_QR) /* its bars are whole modules high */
        stop_if(code != LABELS_OK);
    if (code == LABELS_OK) {
        size_t at = answer_read.length - info.data_length;
        stop_if(at > 1 || memcmp(out + at, info.data, info.data_length) != 0);
    }
    uint32_t dot = wrong % (dots.width * dots.height);
    bits[dot / dots.width * region.stride + dot % dots.width / 8] ^= 128u >> dot % dots.width % 8;
    code = labels_read_bits(&region, bits, answer.length, &found, again_data, sizeof again_data, &answer_read);
    see(code, &answer_read);
    size_t at = answer_read.length - info.data_length;
    stop_if(code == LABELS_OK && (at > 1 || memcmp(again_data + at, info.data, info.data_length) != 0));
}

/* Reads any dots. What is read is drawn again, and has to have them. */
static void read_and_draw(const labels_region *region, const void *data, size_t size) {
    labels_answer answer;
    labels_found found;
    char out[LABELS_MAX_DATA];
    int code = labels_read_bits(region, data, size, &found, out, sizeof out, &answer);
    see(code, &answer);
    if (code != LABELS_OK || found.turns || found.scale > 8 || found.symbology == LABELS_QR)
        return;
    labels_options options = LABELS_DEFAULTS;
    labels_dots dots;
    options.scale = found.scale;
    options.height = 1;
    see(labels_bitmap(&options, (int)found.symbology, out, answer.length, again, 0, ROOM, &dots, &answer), &answer);
    stop_if(answer.code != LABELS_OK || dots.width != region->width);
    for (uint32_t x = 0; x < dots.width; x++) {
        uint32_t at = region->left + x;
        uint32_t dot = ((const unsigned char *)data)[region->top * region->stride + at / 8] >> (7 - at % 8) & 1;
        stop_if((dot == region->dark) != (again[x / 8] >> (7 - x % 8) & 1));
    }
}

int LLVMFuzzerTestOneInput(const unsigned char *bytes, size_t all) {
    if (all < HEAD)
        return 0;
    size_t size = all - HEAD;
    unsigned char *data = malloc(size ? size : 1);
    memcpy(data, bytes + HEAD, size);
    labels_options options = {bytes[1] % 3, bytes[2] % 9, bytes[3] * 2u, bytes[4] % 5, bytes[5] % 11, bytes[6] % 10,
                              bytes[7] % 2, {bytes[8] == 255, 0, 0, 0, 0}};
    int symbology = bytes[9] % 7 - 1;
    size_t room = bytes[10] * 64u;
    labels_region region = {bytes[11], bytes[12], bytes[13], bytes[14] + bytes[15] * 8u, bytes[16], bytes[17] % 3,
                            {bytes[18] == 255, 0, 0}};
    labels_answer answer;
    labels_symbol_info info;
    char *out = malloc(room ? room : 1);
    switch (bytes[0] % 6) {
    case 0: see(labels_draw(&options, symbology, data, size, out, room, &answer), &answer); break;
    case 1: see(labels_draw_line(&options, data, size, out, room, &answer), &answer); break;
    case 2: see(labels_line(&options, data, size, (unsigned char *)out, room, &info, &answer), &answer); break;
    case 3: draw_and_read(&options, symbology, data, size, (bytes[19] << 16 | bytes[20] << 8 | bytes[21]) * 7u); break;
    case 4: read_and_draw(&region, data, size); break;
    default: /* numbers of any size */
        memcpy(&region, bytes + 1, HEAD - 1 < sizeof region ? HEAD - 1 : sizeof region);
        see(labels_read_bits(&region, data, size, NULL, out, room, &answer), &answer);
    }
    free(data);
    free(out);
    return 0;
}
