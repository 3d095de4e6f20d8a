/* Looks at labels.c alone: the proved calls are stand-ins here, which see that each gets just what the caller gave, and
 * which read every byte that they may read and write every byte that they may write. All of it is between pages that
 * cannot be touched. Status 1 where something is not so; a byte too many ends the program by a signal. */
#include "guard.h"
#include "proved.h"
#include <stdio.h>

enum { MESSAGE = LABELS_MESSAGE_ROOM - 1, FULL = sizeof(((labels_symbol_info *)0)->data) - 1, FEW = 37, MARK = 0x5a };
enum { CALLS = 9, READ_BITS = CALLS - 1, SYMBOLOGIES = LABELS_QR + 1, MANY = 5000 };

#define SEE(fact) see(fact, #fact, __LINE__)

/* What the caller gave, and the end of what it was told of the data. */
static struct {
    const labels_options *options;
    int symbology, calls;
    const char *data;
    size_t size, room, stride, most;
    unsigned char *to;
    const labels_region *region;
} given;

static volatile unsigned char sum;

static void see(int fact, const char *text, int line) {
    if (fact)
        return;
    printf("line %d: not so: %s\n", line, text);
    exit(1);
}

static void see_data(const labels_options *options, const void *data, size_t size) {
    SEE(memcmp(options, given.options, sizeof *options) == 0);
    SEE(size == given.size && (data == given.data || size == 0));
    for (size_t i = 0; i < size; i++)
        sum += ((const unsigned char *)data)[i];
    given.calls++;
}

static void see_room(const void *to, size_t room) { SEE(room == given.room && (to == given.to || room == 0)); }

/* A message that fills its room, of which more is told than there is room for. */
static void put_message(char *message, size_t room, labels_answer *answer) {
    SEE(message == answer->message && room == MESSAGE);
    memset(message, 'm', room);
    answer->code = LABELS_NOT_A_DIGIT;
    answer->reserved = 0;
    answer->length = 3;
    answer->at = 2;
    answer->message_length = room + 1000;
}

static void see_modules(const unsigned char *to, size_t room) {
    SEE(room == (given.room < given.most ? given.room : given.most) && (to == given.to || room == 0));
    for (size_t i = 0; i < room; i++)
        SEE(to[i] == 0);
}

static void put_info(char *full, size_t room, labels_symbol_info *info) {
    SEE(full == info->data && room == FULL);
    memset(info, 1, offsetof(labels_symbol_info, data_length));
    memset(full, 'd', room);
    info->data_length = room + 1000;
}

void labels_proved_draw(const labels_options *options, uint32_t symbology, const void *data, size_t size, char *out,
                        size_t room, char *message, size_t message_room, labels_answer *answer) {
    SEE(symbology == (uint32_t)given.symbology);
    labels_proved_draw_line(options, data, size, out, room, message, message_room, answer);
}

void labels_proved_draw_line(const labels_options *options, const void *text, size_t size, char *out, size_t room,
                             char *message, size_t message_room, labels_answer *answer) {
    see_data(options, text, size);
    see_room(out, room);
    memset(out, MARK, room);
    put_message(message, message_room, answer);
}

void labels_proved_symbol(const labels_options *options, uint32_t symbology, const void *data, size_t size,
                          unsigned char *modules, size_t room, char *message, size_t message_room, char *full,
                          size_t full_room, labels_symbol_info *info, labels_answer *answer) {
    SEE(symbology == (uint32_t)given.symbology);
    labels_proved_line(options, data, size, modules, room, message, message_room, full, full_room, info, answer);
}

void labels_proved_line(const labels_options *options, const void *text, size_t size, unsigned char *modules,
                        size_t room, char *message, size_t message_room, char *full, size_t full_room,
                        labels_symbol_info *info, labels_answer *answer) {
    see_data(options, text, size);
    see_modules(modules, room);
    memset(modules, MARK, room);
    put_message(message, message_room, answer);
    put_info(full, full_room, info);
}

void labels_proved_bitmap(const labels_options *options, uint32_t symbology, const void *data, size_t size,
                          unsigned char *bits, size_t room, size_t stride, char *message, size_t message_room,
                          uint32_t *width, uint32_t *height, labels_answer *answer) {
    SEE(symbology == (uint32_t)given.symbology);
    labels_proved_bitmap_line(options, data, size, bits, room, stride, message, message_room, width, height, answer);
}

void labels_proved_bitmap_line(const labels_options *options, const void *text, size_t size, unsigned char *bits,
                               size_t room, size_t stride, char *message, size_t message_room, uint32_t *width,
                               uint32_t *height, labels_answer *answer) {
    see_data(options, text, size);
    see_room(bits, room);
    SEE(stride == given.stride);
    memset(bits, MARK, room);
    put_message(message, message_room, answer);
    *width = 7;
    *height = 8;
}

void labels_proved_read(uint32_t symbology, uint32_t scale, uint32_t width, uint32_t height, const void *dots,
                        size_t size, char *out, size_t room, labels_answer *answer) {
    SEE(symbology == (uint32_t)given.symbology && scale == given.stride);
    SEE((size_t)width * height == size);
    see_data(given.options, dots, size);
    see_room(out, room);
    memset(out, MARK, room);
    put_message(answer->message, MESSAGE, answer);
}

void labels_proved_read_modules(uint32_t symbology, uint32_t width, uint32_t rows, const void *modules, size_t size,
                                char *out, size_t room, labels_answer *answer) {
    labels_proved_read(symbology, (uint32_t)given.stride, width, rows, modules, size, out, room, answer);
}

void labels_proved_read_bits(const labels_region *region, const void *bits, size_t size, char *out, size_t room,
                             labels_found *found, labels_answer *answer) {
    SEE(memcmp(region, given.region, sizeof *region) == 0);
    see_data(given.options, bits, size);
    see_room(out, room);
    memset(out, MARK, room);
    put_message(answer->message, MESSAGE, answer);
    found->turns = 3;
}

uint32_t labels_proved_layout(uint32_t symbology, labels_layout *layout) {
    SEE(symbology == (uint32_t)given.symbology && (void *)layout == given.to);
    memset(layout, MARK, sizeof *layout);
    return LABELS_BAD_SYMBOLOGY;
}

/* The modules of the first QR version from one on that has room for so many bytes at level H, whose data codewords have
 * two bytes less: the mode and the count take 12 bits (ISO/IEC 18004, tables 2, 3 and 7). */
static size_t most_of_qr(size_t version, size_t size) {
    static const size_t codewords[] = {9, 16, 26, 36, 46, 60, 66, 86, 100};
    for (; version <= 9; version++)
        if (size + 2 <= codewords[version - 1])
            return (17 + 4 * version) * (17 + 4 * version);
    return LABELS_MAX_MODULES;
}

/* The modules that a symbol of so many bytes can have: EAN and UPC at most 95, Code 128 two characters a byte. */
static size_t most_of(int symbology, size_t size) {
    static const size_t fixed[] = {95, 95, 95, LABELS_MAX_BARS};
    if (symbology == LABELS_QR)
        return most_of_qr(given.options->min_version, size);
    size_t most = fixed[symbology];
    size_t of_bytes = (2 * size + 2) * 11 + 13;
    return symbology == LABELS_CODE128 && of_bytes < most ? of_bytes : most;
}

/* The sides of so many dots: one row, or a square that no memory has. */
static uint32_t side_of(size_t size) { return size > MANY ? UINT32_MAX : (uint32_t)size; }

/* The call of a number, as the caller makes it. */
static int made(int call, const labels_options *options, labels_symbol_info *info, labels_dots *dots,
                labels_found *found, labels_answer *answer) {
    const char *data = given.data;
    size_t size = given.size, room = given.room;
    given.most = call == 0 ? most_of(given.symbology, size) : LABELS_MAX_MODULES;
    switch (call) {
    case 0:
        return labels_symbol(options, given.symbology, data, size, given.to, room, info, answer);
    case 1:
        return labels_line(options, data, size, given.to, room, info, answer);
    case 2:
        return labels_draw(options, given.symbology, data, size, (char *)given.to, room, answer);
    case 3:
        return labels_draw_line(options, data, size, (char *)given.to, room, answer);
    case 4:
        return labels_bitmap(options, given.symbology, data, size, given.to, given.stride, room, dots, answer);
    case 5:
        return labels_bitmap_line(options, data, size, given.to, given.stride, room, dots, answer);
    case 6:
        return labels_read_modules(given.symbology, data, side_of(size), size > MANY ? UINT32_MAX : 1,
                                   (char *)given.to, room, answer);
    case READ_BITS:
        return labels_read_bits(given.region, data, size, found, (char *)given.to, room, answer);
    default:
        return labels_read(given.symbology, (uint32_t)given.stride, data, side_of(size), size > MANY ? UINT32_MAX : 1,
                           (char *)given.to, room, answer);
    }
}

static void see_told(int call, const labels_symbol_info *info, const labels_dots *dots, const labels_found *found) {
    if (call <= 1) {
        SEE(info->data_length == FULL + 1000 && info->data[FULL - 1] == 'd' && info->data[FULL] == 0);
        SEE(info->mask == 0x01010101);
    }
    if (call == 4 || call == 5)
        SEE(dots->width == 7 && dots->height == 8 && dots->reserved[0] == 0 && dots->reserved[1] == 0);
    if (call == READ_BITS)
        SEE(found->turns == 3 && found->symbology == 0 && found->scale == 0 && found->reserved[4] == 0);
}

static void one_call(int call, int symbology, size_t size, size_t room, int is_last, int wants_all) {
    static char *memory[7];
    static const labels_options plain = LABELS_DEFAULTS;
    static const labels_region region = {3, 1, 2, 4, 5, 1, {0, 0, 0}};
    for (int i = 0; i < 7; i++)
        memory[i] = memory[i] ? memory[i] : guarded();
    labels_options *options = guard_at(memory[0], sizeof *options, is_last, MARK);
    labels_symbol_info *info = guard_at(memory[3], sizeof *info, is_last, MARK);
    labels_answer *answer = guard_at(memory[4], sizeof *answer, is_last, MARK);
    labels_dots *dots = guard_at(memory[5], sizeof *dots, is_last, MARK);
    labels_found *found = guard_at(memory[6], sizeof *found, is_last, MARK);
    given.region = &region;
    given.options = wants_all ? options : &plain;
    given.symbology = symbology;
    given.data = guard_at(memory[1], size, is_last, '1');
    given.to = guard_at(memory[2], room, is_last, MARK);
    given.size = size;
    given.room = room;
    given.stride = 3;
    given.calls = 0;
    int code = made(call, wants_all ? options : NULL, wants_all ? info : NULL, wants_all ? dots : NULL,
                    wants_all ? found : NULL, wants_all ? answer : NULL);
    SEE(given.calls == 1 && code == LABELS_NOT_A_DIGIT);
    if (!wants_all)
        return;
    SEE(answer->code == LABELS_NOT_A_DIGIT && answer->length == 3 && answer->at == 2);
    SEE(answer->message_length == MESSAGE && strlen(answer->message) == MESSAGE);
    see_told(call, info, dots, found);
}

/* Data and its room may touch, and share no byte. */
static void see_overlap(int call) {
    static const labels_options plain = LABELS_DEFAULTS;
    static unsigned char memory[3 * FEW];
    labels_symbol_info info;
    labels_dots dots;
    labels_found found;
    labels_answer answer;
    for (size_t at = 0; at <= 2 * FEW; at++) {
        int is_apart = at == 0 || at == 2 * FEW;
        given.options = &plain;
        given.symbology = LABELS_QR;
        given.data = (const char *)memory + FEW;
        given.size = given.room = FEW;
        given.to = memory + at;
        given.calls = 0;
        memset(&info, MARK, sizeof info);
        memset(&dots, MARK, sizeof dots);
        memset(&found, MARK, sizeof found);
        int code = made(call, NULL, &info, &dots, &found, &answer);
        SEE(given.calls == is_apart && code == (is_apart ? LABELS_NOT_A_DIGIT : LABELS_BAD_ARGUMENT));
        SEE(is_apart || strcmp(answer.message, labels_code_text(LABELS_BAD_ARGUMENT)) == 0);
        SEE(is_apart || (answer.length == 0 && answer.at == 0 && answer.reserved == 0));
        SEE(is_apart || call > 1 || (info.width == 0 && info.data_length == 0 && info.data[0] == 0));
        SEE(is_apart || call < 4 || call > 5 || (dots.width == 0 && dots.height == 0));
        SEE(is_apart || call != READ_BITS || (found.scale == 0 && found.turns == 0));
    }
}

/* A size that no memory has, and bytes that are nowhere. */
static void see_bad(int call) {
    static char byte;
    const struct {
        const char *data;
        size_t size;
        char *to;
        size_t room;
    } bad[] = {{NULL, 1, &byte, 0}, {&byte, 0, NULL, 1}, {&byte, SIZE_MAX, NULL, 0}, {NULL, 0, &byte, SIZE_MAX}};
    labels_answer answer;
    for (size_t i = 0; i < sizeof bad / sizeof *bad; i++) {
        given.data = bad[i].data;
        given.size = bad[i].size;
        given.to = (unsigned char *)bad[i].to;
        given.room = bad[i].room;
        given.calls = 0;
        SEE(made(call, NULL, NULL, NULL, NULL, &answer) == LABELS_BAD_ARGUMENT && given.calls == 0);
    }
}

static void see_no_region(void) {
    given.calls = 0;
    SEE(labels_read_bits(NULL, NULL, 0, NULL, NULL, 0, NULL) == LABELS_BAD_ARGUMENT && given.calls == 0);
}

/* Rows without dots may be billions, and none is looked at: but they end where they did, which may be too far. */
static void see_no_dots(void) {
    static const labels_region pairs[][2] = {
        {{0, 0, 0, 0, UINT32_MAX, 0, {0, 0, 0}}, {0, 0, 0, 0, 0, 0, {0, 0, 0}}},
        {{0, 0, 9, 0, UINT32_MAX, 1, {0, 0, 0}}, {0, 0, 0, 0, 0, 1, {0, 0, 0}}},
        {{8, 3, 5, 0, 7, 1, {0, 0, 0}}, {8, 3, 12, 0, 0, 1, {0, 0, 0}}},
        {{1, 0, UINT32_MAX, 0, 2, 0, {0, 0, 0}}, {1, 0, UINT32_MAX, 0, 2, 0, {0, 0, 0}}},
        {{1, 0, 2, 0, UINT32_MAX, 0, {0, 0, 0}}, {1, 0, UINT32_MAX, 0, 2, 0, {0, 0, 0}}},
        {{1, 0, 2, 1, 9, 0, {0, 0, 0}}, {1, 0, 2, 1, 9, 0, {0, 0, 0}}},
    };
    given.data = NULL;
    given.to = NULL;
    given.size = given.room = 0;
    for (size_t row = 0; row < sizeof pairs / sizeof *pairs; row++) {
        given.calls = 0;
        given.region = &pairs[row][1];
        labels_read_bits(&pairs[row][0], NULL, 0, NULL, NULL, 0, NULL);
        SEE(given.calls == 1);
    }
}

static void see_layout(void) {
    char *memory = guarded();
    for (int is_last = 0; is_last < 2; is_last++) {
        given.to = guard_at(memory, sizeof(labels_layout), is_last, 0);
        given.symbology = -1 - is_last;
        SEE(labels_symbology_layout(given.symbology, (labels_layout *)given.to) == LABELS_BAD_SYMBOLOGY);
        SEE(given.to[sizeof(labels_layout) - 1] == MARK);
    }
    SEE(labels_symbology_layout(LABELS_EAN13, NULL) == LABELS_BAD_ARGUMENT);
}

int main(void) {
    static const size_t sizes[] = {0, 1, 7, 8, FEW, 79, 80, 81, 98, 99};
    static const size_t rooms[] = {0, 1, FEW, LABELS_MAX_BARS, LABELS_MAX_MODULES, MANY};
    int done = 0;
    for (int call = 0; call < CALLS; call++) {
        for (size_t s = 0; s < sizeof sizes / sizeof *sizes; s++)
            for (size_t r = 0; r < sizeof rooms / sizeof *rooms; r++)
                for (int way = 0; way < 4 * SYMBOLOGIES; way++, done++)
                    one_call(call, way / 4, sizes[s], rooms[r], way & 1, way & 2);
        see_overlap(call);
        see_bad(call);
    }
    see_no_region();
    see_no_dots();
    see_layout();
    printf("%d calls were passed on as they were made\n", done);
    return 0;
}
