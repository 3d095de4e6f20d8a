/* Eight threads with stacks of 64 KB draw and read at once, each in an order of its own, what one thread does: 100,800
 * calls. Status 1 where a sum differs. Some calls want no answer, so that the library uses memory of its own for it. */
#include "labels_of_test.h"
#include <pthread.h>
#include <stdio.h>
#include <stdlib.h>

enum { THREADS = 8, JOBS = 1800, CALLS = 7, STACK = 64 << 10, ROOM = 1 << 20, STRIDE = 64 };

static uint64_t sums[THREADS + 1][JOBS];

static labels_options options_of(int job) {
    labels_options options = LABELS_DEFAULTS;
    options.format = (uint32_t)(job % 2);
    options.scale = (uint32_t)(1 + job % 8);
    options.height = (uint32_t)(1 + job % 60);
    options.level = (uint32_t)(job % 4);
    options.min_version = (uint32_t)(1 + job % 10);
    options.mask = (uint32_t)(job % 9);
    options.escapes = (uint32_t)(job % 2);
    return options;
}

/* Reads what is drawn of data, by way of `out`, and as bits. Returns how many bytes are read. */
static size_t read_back(int symbology, const char *data, char *out, char *read) {
    unsigned char bits[50 * STRIDE];
    labels_dots dots;
    labels_answer answer;
    labels_bitmap(NULL, symbology, data, strlen(data), bits, STRIDE, sizeof bits, &dots, NULL);
    put_digits(bits, STRIDE, &dots, out);
    labels_read(symbology, 1, out, dots.width, dots.height, read, LABELS_MAX_DATA, &answer);
    labels_region region = {STRIDE, 0, 0, dots.width, dots.height, 1, {0}};
    labels_read_bits(&region, bits, sizeof bits, NULL, read, LABELS_MAX_DATA, &answer);
    return answer.length;
}

static uint64_t sum_of(int job, char *out) {
    labels_options options = options_of(job);
    const char *data = data_of_labels[job % LABELS_OF_TEST];
    int symbology = job / LABELS_OF_TEST % SYMBOLOGIES;
    char line[128];
    int size = snprintf(line, sizeof line, "%s %s", symbologies[symbology], data);
    unsigned char modules[LABELS_MAX_MODULES];
    char read[LABELS_MAX_DATA];
    labels_symbol_info info;
    labels_answer answer;
    uint64_t sum = UINT64_C(14695981039346656037);

    sum ^= (uint64_t)labels_draw(&options, symbology, data, strlen(data), out, ROOM, &answer);
    sum = hash_of(out, answer.length, hash_of(answer.message, answer.message_length, sum));
    sum ^= (uint64_t)labels_symbol(&options, symbology, data, strlen(data), modules, sizeof modules, &info, NULL);
    sum = hash_of(modules, info.width * info.rows, hash_of(&info, offsetof(labels_symbol_info, data) + info.data_length, sum));
    sum ^= (uint64_t)labels_line(&options, line, (size_t)size, modules, sizeof modules, NULL, &answer);
    sum = hash_of(modules, answer.length, hash_of(answer.message, answer.message_length, sum));
    sum ^= (uint64_t)labels_draw_line(&options, line, (size_t)size, out, ROOM, &answer);
    sum = hash_of(out, answer.length, sum);
    return hash_of(read, read_back(symbology, data, out, read), sum);
}

static void *draw_all(void *number) {
    long thread = (long)number;
    char *out = malloc(ROOM);
    if (!out)
        abort();
    for (long i = 0; i < JOBS; i++) {
        int job = (int)(thread == THREADS ? i : (i * 7919 + thread * 131) % JOBS);
        sums[thread][job] = sum_of(job, out);
    }
    free(out);
    return NULL;
}

int main(void) {
    pthread_t threads[THREADS];
    pthread_attr_t attributes;
    draw_all((void *)(long)THREADS);
    if (pthread_attr_init(&attributes) != 0 || pthread_attr_setstacksize(&attributes, STACK) != 0)
        return 2;
    for (long thread = 0; thread < THREADS; thread++)
        if (pthread_create(&threads[thread], &attributes, draw_all, (void *)thread) != 0)
            return 2;
    for (int thread = 0; thread < THREADS; thread++)
        pthread_join(threads[thread], NULL);
    for (int thread = 0; thread < THREADS; thread++)
        if (memcmp(sums[thread], sums[THREADS], sizeof sums[thread]) != 0) {
            printf("thread %d differs\n", thread);
            return 1;
        }
    printf("%d threads made the %d calls of one\n", THREADS, JOBS * CALLS);
    return 0;
}
