/* How much stack the calls use at most, in bytes: a thread's stack is painted, and what is written over is counted. */
#include "labels_of_test.h"
#include <pthread.h>
#include <stdio.h>
#include <stdlib.h>

enum { STACK = 1 << 20, ROOM = 8 << 20, STRIDE = 256, PAINT = 0xa5 };

static unsigned char stack[STACK] __attribute__((aligned(4096)));
static char out[ROOM];
static unsigned char modules[LABELS_MAX_MODULES];
static unsigned char bits[65 * STRIDE]; /* QR version 10 and its quiet zone */
static char digits[65 * STRIDE];
static char line[300];

struct job {
    int symbology; /* none where it is below 0: only the thread is measured */
    size_t size;   /* of the data of a QR symbol */
    uint32_t format, level;
};

/* Reads what is drawn of data, by all calls that read. */
static void read_back(const labels_options *options, int symbology, const char *data, size_t size) {
    labels_dots dots;
    labels_answer answer;
    labels_bitmap(options, symbology, data, size, bits, STRIDE, sizeof bits, &dots, NULL);
    put_digits(bits, STRIDE, &dots, digits);
    labels_region region = {STRIDE, 0, 0, dots.width, dots.height, 1, {0}};
    labels_symbol_info info;
    labels_symbol(options, symbology, data, size, modules, sizeof modules, &info, NULL);
    if (labels_read(symbology, 1, digits, dots.width, dots.height, out, sizeof out, &answer) != LABELS_OK ||
        labels_read_bits(&region, bits, sizeof bits, NULL, out, sizeof out, &answer) != LABELS_OK ||
        labels_read_modules(symbology, modules, info.width, info.rows, out, sizeof out, &answer) != LABELS_OK)
        abort();
}

static void *draw(void *given) {
    const struct job *job = given;
    labels_options options = LABELS_DEFAULTS;
    labels_answer answer;
    labels_symbol_info info;
    if (job->symbology < 0)
        return NULL;
    options.format = job->format;
    options.level = job->level;
    options.scale = 8;
    options.height = 500;
    options.escapes = 1;
    const char *data = job->symbology == LABELS_QR ? line + 3 : data_of_labels[job->symbology == LABELS_CODE128];
    size_t size = job->symbology == LABELS_QR ? job->size : strlen(data);
    labels_draw(&options, job->symbology, data, size, out, sizeof out, &answer);
    labels_draw(&options, job->symbology, "12x", 3, out, sizeof out, &answer);
    labels_symbol(&options, job->symbology, data, size, modules, sizeof modules, &info, &answer);
    labels_bitmap(&options, job->symbology, data, size, (unsigned char *)out, 1815, sizeof out, NULL, &answer);
    labels_bitmap_line(&options, line, 3 + size, (unsigned char *)out, 1815, sizeof out, NULL, &answer);
    labels_line(&options, line, 3 + size, modules, sizeof modules, &info, &answer);
    labels_draw_line(&options, line, 3 + size, out, sizeof out, &answer);
    options.scale = 1;
    options.height = 1;
    read_back(&options, job->symbology, data, size);
    return NULL;
}

static size_t used(struct job job) {
    pthread_attr_t attributes;
    pthread_t thread;
    size_t free_bytes = 0;
    memset(stack, PAINT, sizeof stack);
    pthread_attr_init(&attributes);
    pthread_attr_setstack(&attributes, stack, sizeof stack);
    if (pthread_create(&thread, &attributes, draw, &job) != 0)
        return sizeof stack;
    pthread_join(thread, NULL);
    while (free_bytes < sizeof stack && stack[free_bytes] == PAINT)
        free_bytes++;
    return sizeof stack - free_bytes;
}

int main(void) {
    const struct job jobs[] = {
        {LABELS_EAN13, 0, LABELS_PBM, LABELS_LEVEL_M},  {LABELS_CODE128, 0, LABELS_PBM, LABELS_LEVEL_M},
        {LABELS_QR, 5, LABELS_PBM, LABELS_LEVEL_M},     {LABELS_QR, 200, LABELS_PBM, LABELS_LEVEL_M},
        {LABELS_QR, 271, LABELS_ASCII, LABELS_LEVEL_L}, {LABELS_EAN13, 0, LABELS_ASCII, LABELS_LEVEL_M},
    };
    struct job none = {-1, 0, 0, 0};
    size_t most = 0;
    memset(line, 'x', sizeof line);
    memcpy(line, "qr ", 3);
    used(none);
    size_t base = used(none);
    for (size_t i = 0; i < sizeof jobs / sizeof *jobs; i++) {
        size_t size = used(jobs[i]);
        most = size > most ? size : most;
    }
    printf("%zu\n", most - base);
    return 0;
}
