/* The proved calls of crates/labels_c, as labels.c and the tests make them. Nobody else does: it is not installed. No
 * pointer is NULL; of an answer they write what is before its message, of an info what is before its data. */
#ifndef LABELS_PROVED_H
#define LABELS_PROVED_H

#include "labels.h"

void labels_proved_draw(const labels_options *options, uint32_t symbology, const void *data, size_t size, char *out,
                        size_t room, char *message, size_t message_room, labels_answer *answer);
void labels_proved_symbol(const labels_options *options, uint32_t symbology, const void *data, size_t size,
                          unsigned char *modules, size_t room, char *message, size_t message_room, char *full,
                          size_t full_room, labels_symbol_info *info, labels_answer *answer);
void labels_proved_draw_line(const labels_options *options, const void *text, size_t size, char *out, size_t room,
                             char *message, size_t message_room, labels_answer *answer);
void labels_proved_line(const labels_options *options, const void *text, size_t size, unsigned char *modules,
                        size_t room, char *message, size_t message_room, char *full, size_t full_room,
                        labels_symbol_info *info, labels_answer *answer);
void labels_proved_bitmap(const labels_options *options, uint32_t symbology, const void *data, size_t size,
                          unsigned char *bits, size_t room, size_t stride, char *message, size_t message_room,
                          uint32_t *width, uint32_t *height, labels_answer *answer);
void labels_proved_bitmap_line(const labels_options *options, const void *text, size_t size, unsigned char *bits,
                               size_t room, size_t stride, char *message, size_t message_room, uint32_t *width,
                               uint32_t *height, labels_answer *answer);
void labels_proved_read(uint32_t symbology, uint32_t scale, uint32_t width, uint32_t height, const void *dots,
                        size_t size, char *out, size_t room, labels_answer *answer);
void labels_proved_read_modules(uint32_t symbology, uint32_t width, uint32_t rows, const void *modules, size_t size,
                                char *out, size_t room, labels_answer *answer);
void labels_proved_read_bits(const labels_region *region, const void *bits, size_t size, char *out, size_t room,
                             labels_found *found, labels_answer *answer);
uint32_t labels_proved_layout(uint32_t symbology, labels_layout *layout);

#endif
