/* Between callers in C and the proved calls of crates/labels_c: NULL, a room that overlaps its data, modules that are 0
 * or 1, and the end of a message. Nothing here is proved. */
#include "proved.h"
#include <string.h>

enum { MESSAGE_ROOM = sizeof(((labels_answer *)0)->message) - 1 };
enum { DATA_ROOM = sizeof(((labels_symbol_info *)0)->data) - 1 };

static const labels_options defaults = LABELS_DEFAULTS;
static char nothing; /* it is not read or written */

static const char *const texts[] = {
    "done",
    "the room is too small",
    "an option is out of its range",
    "unknown symbology",
    "no data",
    "not a digit",
    "wrong number of digits",
    "wrong check digit",
    "data is longer than 80 bytes",
    "a byte is not ASCII",
    "data does not fit version 10",
    "line is longer than 1100 bytes",
    "bad setting",
    "bad escape",
    "an empty line or a comment",
    "the line has a line feed",
    "a pointer is NULL, a size is too large, or the room overlaps the data",
    "the dots are no symbol of the symbology",
};

const char *labels_version(void) { return LABELS_VERSION; }

const char *labels_code_text(int code) {
    return code >= 0 && (size_t)code < sizeof texts / sizeof *texts ? texts[code] : "unknown code";
}

/* The names that labels(1) reads, each at its number. */
static const char *const symbologies[] = {"ean13", "ean8", "upca", "code128", "qr"};
static const char *const levels[] = {"L", "M", "Q", "H"};
enum { SYMBOLOGIES = sizeof symbologies / sizeof *symbologies, LEVELS = sizeof levels / sizeof *levels };

const char *labels_symbology_name(int symbology) {
    return symbology >= 0 && symbology < SYMBOLOGIES ? symbologies[symbology] : NULL;
}

const char *labels_level_name(int level) { return level >= 0 && level < LEVELS ? levels[level] : NULL; }

static int is_same(const char *one, const char *other) {
    while (*one && *one == *other) {
        one++;
        other++;
    }
    return *one == *other;
}

/* The place of a name in a table, or -1. */
static int place_of(const char *name, const char *const *names, int count) {
    int place = 0;
    while (name && place < count && !is_same(name, names[place]))
        place++;
    return name && place < count ? place : -1;
}

int labels_symbology_named(const char *name) { return place_of(name, symbologies, SYMBOLOGIES); }

int labels_level_named(const char *name) { return place_of(name, levels, LEVELS); }

int labels_symbology_layout(int symbology, labels_layout *layout) {
    return layout ? (int)labels_proved_layout((uint32_t)symbology, layout) : LABELS_BAD_ARGUMENT;
}

void labels_defaults(labels_options *options) {
    if (options)
        *options = defaults;
}

static const labels_options *or_defaults(const labels_options *options) { return options ? options : &defaults; }

/* A pointer to no bytes points to this one, wherever it pointed to. */
static const void *read_from(const void *bytes, size_t size) { return size ? bytes : &nothing; }

static void *write_to(void *bytes, size_t size) { return size ? bytes : &nothing; }

/* Whether one of these is NULL or too large, or both share a byte. */
static inline int are_bad(const void *data, size_t size, const void *to, size_t room) {
    uintptr_t read = (uintptr_t)data, written = (uintptr_t)to;
    return !data || !to || size > PTRDIFF_MAX || room > PTRDIFF_MAX || written - read < size || read - written < room;
}

/* What an answer without a message says: the option that is wrong, at its number, or what the code means. */
static const char *text_of(const labels_answer *answer) {
    static const char *const options[] = {
        "format has to be 0 or 1",  "scale has to be 1 to 8",        "height has to be 1 to 500",
        "level has to be 0 to 3",   "min_version has to be 1 to 10", "mask has to be 0 to 8",
        "escapes has to be 0 or 1", "reserved words have to be 0",
    };
    size_t option = answer->at - 1;
    int is_told = answer->code == LABELS_BAD_OPTION && option < sizeof options / sizeof *options;
    return is_told ? options[option] : labels_code_text((int)answer->code);
}

/* Ends the message of an answer. Where the proved call put none, it says what the code means. */
static inline int finish(labels_answer *answer) {
    size_t end = answer->message_length < MESSAGE_ROOM ? answer->message_length : MESSAGE_ROOM;
    if (end == 0 && answer->code != LABELS_OK)
        for (const char *text = text_of(answer); text[end]; end++)
            answer->message[end] = text[end];
    answer->message[end] = 0;
    answer->message_length = end;
    return (int)answer->code;
}

static int refuse(labels_answer *answer) {
    answer->code = LABELS_BAD_ARGUMENT;
    answer->reserved = 0;
    answer->length = 0;
    answer->at = 0;
    answer->message_length = 0;
    return finish(answer);
}

/* Ends the data of a symbol, and the answer. */
static int finish_symbol(labels_answer *answer, labels_symbol_info *info) {
    info->data[info->data_length < DATA_ROOM ? info->data_length : DATA_ROOM] = 0;
    return finish(answer);
}

static int refuse_symbol(labels_answer *answer, labels_symbol_info *info) {
    *info = (labels_symbol_info){0};
    return refuse(answer);
}

/* The most bytes that any data may have to fit QR versions 1 to 9, whatever the level: those of level H, in byte mode
 * (ISO/IEC 18004, table 7). */
static const size_t bytes_of_versions[] = {7, 14, 24, 34, 44, 58, 64, 84, 98};

/* The most modules that a QR symbol of so many bytes has. */
static size_t most_of_qr(uint32_t min_version, size_t size) {
    size_t version = 1;
    while (version < 10 && (version < min_version || bytes_of_versions[version - 1] < size))
        version++;
    return (17 + 4 * version) * (17 + 4 * version);
}

/* The most modules that a symbol of so many bytes has. In Code 128 a byte takes two characters of 11 modules at most,
 * beside the start and check characters and the stop character of 13. */
static size_t most_modules(const labels_options *options, int symbology, size_t size) {
    static const size_t most[] = {95, 95, 95, LABELS_MAX_BARS};
    if (symbology == LABELS_QR)
        return most_of_qr(options->min_version, size);
    if (symbology == LABELS_CODE128 && size < 80)
        return 22 * size + 35;
    return symbology >= 0 && symbology <= LABELS_CODE128 ? most[symbology] : 0;
}

/* The proved code takes modules as truth values, so each byte that it may write has to be 0 or 1. Clears as many as a
 * symbol may have, at most. Returns how many there is room for. */
static size_t cleared(unsigned char *modules, size_t room, size_t most) {
    size_t used = room < most ? room : most;
    memset(modules, 0, used);
    return used;
}

int labels_draw(const labels_options *options, int symbology, const void *data, size_t size, char *out, size_t room,
                labels_answer *answer) {
    labels_answer own;
    answer = answer ? answer : &own;
    data = read_from(data, size);
    out = write_to(out, room);
    if (are_bad(data, size, out, room))
        return refuse(answer);
    labels_proved_draw(or_defaults(options), (uint32_t)symbology, data, size, out, room, answer->message, MESSAGE_ROOM,
                       answer);
    return finish(answer);
}

int labels_draw_line(const labels_options *options, const void *text, size_t size, char *out, size_t room,
                     labels_answer *answer) {
    labels_answer own;
    answer = answer ? answer : &own;
    text = read_from(text, size);
    out = write_to(out, room);
    if (are_bad(text, size, out, room))
        return refuse(answer);
    labels_proved_draw_line(or_defaults(options), text, size, out, room, answer->message, MESSAGE_ROOM, answer);
    return finish(answer);
}

int labels_symbol(const labels_options *options, int symbology, const void *data, size_t size, unsigned char *modules,
                  size_t room, labels_symbol_info *info, labels_answer *answer) {
    labels_answer own;
    labels_symbol_info own_info;
    answer = answer ? answer : &own;
    info = info ? info : &own_info;
    data = read_from(data, size);
    modules = write_to(modules, room);
    if (are_bad(data, size, modules, room))
        return refuse_symbol(answer, info);
    options = or_defaults(options);
    room = cleared(modules, room, most_modules(options, symbology, size));
    labels_proved_symbol(options, (uint32_t)symbology, data, size, modules, room, answer->message, MESSAGE_ROOM,
                         info->data, DATA_ROOM, info, answer);
    return finish_symbol(answer, info);
}

int labels_line(const labels_options *options, const void *text, size_t size, unsigned char *modules, size_t room,
                labels_symbol_info *info, labels_answer *answer) {
    labels_answer own;
    labels_symbol_info own_info;
    answer = answer ? answer : &own;
    info = info ? info : &own_info;
    text = read_from(text, size);
    modules = write_to(modules, room);
    if (are_bad(text, size, modules, room))
        return refuse_symbol(answer, info);
    room = cleared(modules, room, LABELS_MAX_MODULES);
    labels_proved_line(or_defaults(options), text, size, modules, room, answer->message, MESSAGE_ROOM, info->data,
                       DATA_ROOM, info, answer);
    return finish_symbol(answer, info);
}

int labels_bitmap(const labels_options *options, int symbology, const void *data, size_t size, unsigned char *bits,
                  size_t stride, size_t room, labels_dots *dots, labels_answer *answer) {
    labels_answer own;
    labels_dots own_dots;
    answer = answer ? answer : &own;
    dots = dots ? dots : &own_dots;
    *dots = (labels_dots){0};
    data = read_from(data, size);
    bits = write_to(bits, room);
    if (are_bad(data, size, bits, room))
        return refuse(answer);
    labels_proved_bitmap(or_defaults(options), (uint32_t)symbology, data, size, bits, room, stride, answer->message,
                         MESSAGE_ROOM, &dots->width, &dots->height, answer);
    return finish(answer);
}

int labels_bitmap_line(const labels_options *options, const void *text, size_t size, unsigned char *bits,
                       size_t stride, size_t room, labels_dots *dots, labels_answer *answer) {
    labels_answer own;
    labels_dots own_dots;
    answer = answer ? answer : &own;
    dots = dots ? dots : &own_dots;
    *dots = (labels_dots){0};
    text = read_from(text, size);
    bits = write_to(bits, room);
    if (are_bad(text, size, bits, room))
        return refuse(answer);
    labels_proved_bitmap_line(or_defaults(options), text, size, bits, room, stride, answer->message, MESSAGE_ROOM,
                              &dots->width, &dots->height, answer);
    return finish(answer);
}

/* The bytes of so many dots or modules, a byte each; more than any memory has where that is too much. */
static size_t bytes_of(uint32_t width, uint32_t height) {
    uint64_t count = (uint64_t)width * height;
    return count > PTRDIFF_MAX ? SIZE_MAX : (size_t)count;
}

int labels_read(int symbology, uint32_t scale, const void *dots, uint32_t width, uint32_t height, char *out,
                size_t room, labels_answer *answer) {
    labels_answer own;
    size_t size = bytes_of(width, height);
    answer = answer ? answer : &own;
    dots = read_from(dots, size);
    out = write_to(out, room);
    if (are_bad(dots, size, out, room))
        return refuse(answer);
    labels_proved_read((uint32_t)symbology, scale, width, height, dots, size, out, room, answer);
    return finish(answer);
}

int labels_read_modules(int symbology, const void *modules, uint32_t width, uint32_t rows, char *out, size_t room,
                        labels_answer *answer) {
    labels_answer own;
    size_t size = bytes_of(width, rows);
    answer = answer ? answer : &own;
    modules = read_from(modules, size);
    out = write_to(out, room);
    if (are_bad(modules, size, out, room))
        return refuse(answer);
    labels_proved_read_modules((uint32_t)symbology, width, rows, modules, size, out, room, answer);
    return finish(answer);
}

int labels_read_bits(const labels_region *region, const void *bits, size_t size, labels_found *found, char *out,
                     size_t room, labels_answer *answer) {
    labels_answer own;
    labels_found own_found;
    answer = answer ? answer : &own;
    found = found ? found : &own_found;
    *found = (labels_found){0};
    bits = read_from(bits, size);
    out = write_to(out, room);
    if (!region || are_bad(bits, size, out, room))
        return refuse(answer);
    labels_region seen = *region;
    if (!seen.width) { /* rows without dots may be billions: none is looked at, and they end where they did */
        uint64_t end = seen.stride ? (uint64_t)seen.top + seen.height : 0;
        seen.top = end < UINT32_MAX ? (uint32_t)end : UINT32_MAX;
        seen.height = (uint32_t)(end - seen.top);
    }
    labels_proved_read_bits(&seen, bits, size, out, room, found, answer);
    return finish(answer);
}
