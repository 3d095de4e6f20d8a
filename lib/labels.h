/* liblabels: bar codes and QR codes, drawn and read back by proved code.
 *
 * EAN-13, EAN-8, UPC-A, Code 128 and QR versions 1 to 10, as an image (the text of a picture: plain PBM, or ## and
 * spaces), a bitmap (a picture as packed bits, one for each dot), or modules of a byte each, of data or of a line of
 * text; and the data of a bitmap. The manual is labels(3); lines and options are those of labels(1).
 *
 * No call takes memory from the heap, keeps state, prints or aborts. All are reentrant: any number of threads may call
 * at once. A call uses at most 40 KB of stack.
 *
 * errno is left alone, and no locale matters. A call is safe in a signal handler, and after fork() in a process with
 * threads.
 *
 * A pointer may be NULL only where a call says so. It has to point to as many bytes as the size or room after it says;
 * one to a struct is aligned as the struct is. Memory that a call writes must not overlap anything else that the call
 * is given: where the room overlaps the data the code is LABELS_BAD_ARGUMENT, other overlaps are not looked for.
 *
 * The structs keep their size for as long as the library is liblabels.so.1. Their `reserved` words are for later
 * versions: in options they must be 0, as LABELS_DEFAULTS and labels_defaults() set them; in answers they are 0. A later
 * version may have more codes and more symbologies. */
#ifndef LABELS_H
#define LABELS_H

#include <stddef.h>
#include <stdint.h>

#ifdef __cplusplus
extern "C" {
#endif

#if defined(__GNUC__)
#define LABELS_API __attribute__((visibility("default")))
#else
#define LABELS_API
#endif

#define LABELS_VERSION "1.2.0"
#define LABELS_VERSION_NUMBER 0x010200 /* for #if: two digits each of major, minor and patch */

enum labels_symbology { LABELS_NO_SYMBOLOGY = -1, LABELS_EAN13, LABELS_EAN8, LABELS_UPCA, LABELS_CODE128, LABELS_QR };
enum labels_format { LABELS_PBM, LABELS_ASCII };
enum labels_level { LABELS_LEVEL_L, LABELS_LEVEL_M, LABELS_LEVEL_Q, LABELS_LEVEL_H };
enum { LABELS_MASK_AUTO = 8 };      /* the mask with the lowest penalty */
enum { LABELS_MAX_BARS = 1795 };    /* no linear symbol has more modules */
enum { LABELS_MAX_MODULES = 3249 }; /* no symbol has more: QR version 10 has 57 rows of 57 */
enum { LABELS_MAX_DATA = 652 };     /* no symbol has more bytes: QR version 10-L has 652 digits */
enum { LABELS_MESSAGE_ROOM = 96 };  /* bytes of a message, its NUL among them */

/* Bytes that are enough for the plain PBM of a picture w dots wide and h high. */
#define LABELS_PICTURE_ROOM(w, h) (14 + (size_t)(h) * ((size_t)(w) + ((size_t)(w) + 69) / 70))

/* A symbology that a call is given. In C it is the enum, which is as large as an int and mixes with it: so gcc -Wextra and
 * clang warn where a level is given for it (-Wenum-conversion). C++ would refuse an int for the enum. */
#if defined(__GNUC__) && !defined(__cplusplus)
typedef enum labels_symbology labels_symbology_number;
#else
typedef int labels_symbology_number;
#endif

/* What a call returns. */
enum labels_code {
    LABELS_OK,                     /* done */
    LABELS_NO_ROOM,                /* the room is too small: the answer has the length that is needed */
    LABELS_BAD_OPTION,             /* an option is out of its range, or a reserved word is not 0: `at` and the message
                                      say which */
    LABELS_BAD_SYMBOLOGY,          /* the number or the name is that of no symbology */
    LABELS_NO_DATA,                /* there is no data */
    LABELS_NOT_A_DIGIT,            /* EAN, UPC: a byte is not a digit */
    LABELS_WRONG_NUMBER_OF_DIGITS, /* EAN, UPC */
    LABELS_WRONG_CHECK_DIGIT,      /* EAN, UPC */
    LABELS_DATA_TOO_LONG,          /* Code 128: more than 80 bytes */
    LABELS_NOT_ASCII,              /* Code 128: a byte above 127 */
    LABELS_DOES_NOT_FIT,           /* QR: more than version 10 holds at this level */
    LABELS_LINE_TOO_LONG,          /* line: more than 1,100 bytes */
    LABELS_BAD_SETTING,            /* line: a setting is unknown, or its value is bad */
    LABELS_BAD_ESCAPE,             /* line: an escape is bad */
    LABELS_SKIPPED,                /* line: it is empty or a comment, and has no symbol */
    LABELS_NOT_ONE_LINE,           /* line: it has a line feed */
    LABELS_BAD_ARGUMENT,           /* a pointer is NULL where it must not be, a size is above PTRDIFF_MAX, or the room
                                      overlaps the data */
    LABELS_NOT_READ                /* the dots are not a symbol that can be read */
};

/* How labels are drawn. A call tests all of them, also those that it does not use. */
typedef struct labels_options {
    uint32_t format;      /* of images: enum labels_format */
    uint32_t scale;       /* of pictures: dots of a module, 1 to 8 */
    uint32_t height;      /* of bars, in modules, 1 to 500 */
    uint32_t level;       /* of QR: enum labels_level */
    uint32_t min_version; /* of QR, 1 to 10 */
    uint32_t mask;        /* of QR: 0 to 7, or LABELS_MASK_AUTO */
    uint32_t escapes;     /* of lines: 1 where their data has escapes, else 0 */
    uint32_t reserved[5];
} labels_options;

#define LABELS_DEFAULTS {LABELS_PBM, 1, 50, LABELS_LEVEL_M, 1, LABELS_MASK_AUTO, 0, {0, 0, 0, 0, 0}}

/* What a call answers about one symbol. */
typedef struct labels_answer {
    uint32_t code;         /* as the call returns it: enum labels_code */
    uint32_t reserved;
    size_t length;         /* bytes of the whole image, bitmap or data, or modules of the symbol; 0 if there is none */
    size_t at;             /* the byte of the data that is wrong, the setting of the line, or the first wrong option of
                              labels_options (1 format .. 7 escapes, 8 a reserved word), from 1 on; 0 where none is */
    size_t message_length; /* bytes of the message */
    char message[LABELS_MESSAGE_ROOM]; /* why there is no symbol, as labels(1) prints it, ended by NUL, or "" */
} labels_answer;

/* A symbol as its modules show it. A linear symbol has one row of modules. */
typedef struct labels_symbol_info {
    uint32_t symbology;                /* enum labels_symbology */
    uint32_t width, rows;              /* of the modules */
    uint32_t height;                   /* in modules, of the symbol as it is drawn */
    uint32_t left, right, top, bottom; /* in modules, the quiet zones that a reader needs */
    uint32_t version, level, mask;     /* of QR, as used; 0 of others */
    uint32_t reserved[5];
    size_t data_length; /* bytes of the data */
    char data[656];     /* what the symbol says, of EAN and UPC with the check digit; ended by NUL, and may have some */
} labels_symbol_info;

/* The size of a bitmap. */
typedef struct labels_dots {
    uint32_t width, height; /* in dots, with the quiet zones; 0 where there is no symbol */
    uint32_t reserved[2];
} labels_dots;

/* The dots that are read of a bitmap, and how its bits lie. The first dot of a row is the highest bit of its first
 * byte, as in binary PBM, in PNG of one bit a dot, and as labels_bitmap() puts them. */
typedef struct labels_region {
    size_t stride;                     /* bytes from one row to the next, at least those up to the end of the region */
    uint32_t left, top, width, height; /* of the dots that are read */
    uint32_t dark;                     /* the bit that is dark: 1 or 0 */
    uint32_t reserved[3];              /* 0 */
} labels_region;

/* What a symbol was read as. */
typedef struct labels_found {
    uint32_t symbology; /* enum labels_symbology */
    uint32_t scale;     /* dots of a module; 0 where nothing is read */
    uint32_t turns;     /* quarter turns clockwise after which the symbol is upright, 0 to 3 */
    uint32_t reserved[5];
} labels_found;

/* Modules from `left` on and before `right`, counted from the left edge of the left quiet zone. */
typedef struct labels_span {
    uint32_t left, right;
} labels_span;

/* Digits of the data from `first` on and before `last`, which are printed in the middle below a span. */
typedef struct labels_digits {
    uint32_t first, last;
    labels_span span;
} labels_digits;

/* Where EAN and UPC symbols have longer bars and printed digits (ISO/IEC 15420). Code 128 and QR have neither. */
typedef struct labels_layout {
    uint32_t guards, groups; /* how many of the spans and of the groups below are used; the others are 0 */
    uint32_t reserved[2];
    labels_span guard[3];   /* bars that are longer than the others, by five modules */
    labels_digits group[4]; /* digits that are printed together, of EAN-13 the first one beside the bars */
} labels_layout;

/* Returns the version of the library that runs, as "1.2.0". */
LABELS_API const char *labels_version(void);

/* Returns what a code means, in English: never NULL, and not to be freed. */
LABELS_API const char *labels_code_text(int code);

/* Returns the name that labels(1) has for a symbology, as "ean13", or for a level, as "Q"; NULL where the number is that of
 * none. It is not to be freed. LABELS_EAN13 is the first symbology: names come until NULL does. */
LABELS_API const char *labels_symbology_name(labels_symbology_number symbology);
LABELS_API const char *labels_level_name(int level);

/* Returns the symbology, or the level, that has this name, letter for letter; -1 where there is none, or with NULL: of
 * symbologies that is LABELS_NO_SYMBOLOGY. */
LABELS_API int labels_symbology_named(const char *name);
LABELS_API int labels_level_named(const char *name);

/* Sets `layout` to that of a symbology. Returns LABELS_OK; LABELS_BAD_SYMBOLOGY where the number is that of none, and then
 * all of it is 0; LABELS_BAD_ARGUMENT with NULL. */
LABELS_API int labels_symbology_layout(labels_symbology_number symbology, labels_layout *layout);

/* Sets the options to their defaults: those of LABELS_DEFAULTS. With NULL it does nothing. */
LABELS_API void labels_defaults(labels_options *options);

/* All calls below return a code, which is in the answer too. `options` may be NULL for the defaults, `info`, `dots`,
 * `found` and `answer` where they are not wanted; what is read where its size is 0, and what is written where its room
 * is 0. */

/* Draws one symbol as an image. Puts its bytes into `out`, as many as there is room for, and nothing after them; the
 * image has no NUL at its end. `answer->length` is that of the whole image: a call without room asks for it. */
LABELS_API int labels_draw(const labels_options *options, labels_symbology_number symbology, const void *data,
                           size_t size, char *out, size_t room, labels_answer *answer);

/* Draws one symbol as modules. Puts them into `modules` where there is room for all, row by row from the top, a byte
 * each, 1 where dark, else 0, without quiet zones. Room that they do not take may be set to 0, up to LABELS_MAX_MODULES
 * bytes in all. `info` is set where the code is LABELS_OK or LABELS_NO_ROOM; else each number in it is 0, and its data
 * is "". What is after the NUL of the data is left as it was. */
LABELS_API int labels_symbol(const labels_options *options, labels_symbology_number symbology, const void *data,
                             size_t size, unsigned char *modules, size_t room, labels_symbol_info *info,
                             labels_answer *answer);

/* Draws what labels(1) draws for one line, as "qr,level=Q HELLO", as an image. The line comes without its line feed. */
LABELS_API int labels_draw_line(const labels_options *options, const void *text, size_t size, char *out, size_t room,
                                labels_answer *answer);

/* Draws the same line as modules, as labels_symbol() puts them. */
LABELS_API int labels_line(const labels_options *options, const void *text, size_t size, unsigned char *modules,
                           size_t room, labels_symbol_info *info, labels_answer *answer);

/* Draws one symbol as a bitmap: the picture of labels_draw(), scale and quiet zones included, bars in all their rows. A
 * dot is a bit, 1 where dark; the first of a row is the highest bit of its first byte. A row is (dots->width + 7) / 8
 * bytes, and its last bits are 0 where it has no dots for them; the next row begins `stride` bytes after the beginning
 * of this one, or with stride 0 directly after it. Nothing else is written, also between the rows: a bitmap can be put
 * into a larger one, at any byte. Where the room is less than `answer->length`, or `stride` less than a row and not 0,
 * nothing is put and the code is LABELS_NO_ROOM; the length is that for the given stride. So a call with stride 0 and
 * without room asks for `dots` and the length. `height` 1 gives bars in `scale` rows. For a format in which 0 is dark,
 * invert each byte: ~byte. */
LABELS_API int labels_bitmap(const labels_options *options, labels_symbology_number symbology, const void *data,
                             size_t size, unsigned char *bits, size_t stride, size_t room, labels_dots *dots,
                             labels_answer *answer);

/* Draws a line as a bitmap, as labels_bitmap() puts it. */
LABELS_API int labels_bitmap_line(const labels_options *options, const void *text, size_t size, unsigned char *bits,
                                  size_t stride, size_t room, labels_dots *dots, labels_answer *answer);

/* Reads the dots of one symbol, and puts its data into `out`, as many bytes as there is room for, and nothing after
 * them: no NUL. `answer->length` is that of the whole data, at most LABELS_MAX_DATA. It has no options.
 *
 * The dots are those of a region of a bitmap, exactly the symbol in its quiet zone: each module is a square of dots,
 * and the quiet zone has the width that labels_symbol() gives in `info`. Bars are any number of modules high, all rows
 * are equal, and no quiet zone is above and below them. You give neither the symbology nor the scale: they are found,
 * and `found` has them; its numbers are 0 if nothing is read. If the region cannot be read upright, by any symbology at
 * any scale, it is turned, by as few quarter turns as needed. No two symbologies, and no two scales, read the same
 * upright dots.
 *
 * Nothing is corrected or guessed: a symbol with one dot of the wrong colour is not read. Only the colour of the seven
 * remainder modules of QR versions 2 to 6, which hold no data, does not matter (ISO/IEC 18004, table 1). The data is
 * what the symbol says, of EAN and UPC with the check digit, which is checked. A UPC-A symbol of 12 digits has the bars
 * of the EAN-13 symbol of a 0 and these digits. Their quiet zones differ: 9 and 9 modules of UPC-A, 11 and 7 of EAN-13.
 *
 * The time grows only with the number of dots, whatever they show: each symbology is tried at one scale in each
 * direction, at which its quiet zone ends at the first dark dot. A region without a dark dot is looked at once.
 *
 * `bits` has `size` bytes; those from the end of the last row of the region on may be left out. The bits of the bitmap
 * outside the region do not matter. The code is LABELS_OK; LABELS_NO_ROOM where the data is longer than the room;
 * LABELS_BAD_OPTION where the region is not within the bitmap, its rows overlap, `dark` is neither 0 nor 1, or a
 * reserved word is not 0; LABELS_NOT_READ where the dots are no symbol; or LABELS_BAD_ARGUMENT. */
LABELS_API int labels_read_bits(const labels_region *region, const void *bits, size_t size, labels_found *found,
                                char *out, size_t room, labels_answer *answer);

/* Superseded by labels_read_bits(), which needs neither symbology nor scale, and takes a bitmap as it is; this call
 * stays as long as the library is liblabels.so.1. It reads dots of a byte each in the same way, as a symbol of this
 * symbology whose modules are `scale` dots wide, from 1 on. It does not turn them.
 *
 * `dots` has `width` times `height` bytes, row by row from the top: the digit '1' where a dot is dark, '0' where it is
 * light, as in plain PBM without its head and its white space. It may be NULL where width or height is 0. The codes are
 * those of labels_read_bits(), LABELS_BAD_OPTION where the scale is 0, and LABELS_BAD_SYMBOLOGY. */
LABELS_API int labels_read(labels_symbology_number symbology, uint32_t scale, const void *dots, uint32_t width,
                           uint32_t height, char *out, size_t room, labels_answer *answer);

/* Superseded by labels_read_bits(), as labels_read() is. It reads the modules of one symbol, as labels_symbol() puts them.
 * `modules` has `width` times `rows` bytes, row by row from the top, 1 where dark, else 0, without quiet zones; a linear
 * symbol has one row, or more that are equal. */
LABELS_API int labels_read_modules(labels_symbology_number symbology, const void *modules, uint32_t width,
                                   uint32_t rows, char *out, size_t room, labels_answer *answer);

#ifdef __cplusplus
}
#endif
#endif
