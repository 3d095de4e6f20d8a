/* Draws the lines that are its arguments, one after another, by one process of labels(1). */
#include <signal.h>
#include <stdio.h>
#include <stdlib.h>
#include <string.h>
#include <unistd.h>

/* Starts labels: what is written to `to` are its lines, and both of its outputs come from `from`. */
static int start(FILE **to, FILE **from) {
    int lines[2], answers[2];
    if (pipe(lines) || pipe(answers))
        return -1;
    switch (fork()) {
    case -1:
        return -1;
    case 0:
        dup2(lines[0], STDIN_FILENO);
        dup2(answers[1], STDOUT_FILENO);
        dup2(answers[1], STDERR_FILENO);
        close(lines[1]);
        close(answers[0]);
        execlp("labels", "labels", (char *)NULL);
        _exit(127);
    }
    close(lines[0]);
    close(answers[1]);
    *to = fdopen(lines[1], "w");
    *from = fdopen(answers[0], "r");
    return *to && *from ? 0 : -1;
}

/* Copies the picture of a line to standard output, or its message to standard error. Returns 0 where there is a
 * picture, 1 where the line is refused, and -1 where labels has ended. */
static int draw(FILE *to, FILE *from, const char *line) {
    char head[200];
    size_t width, height;
    if (!*line || *line == '#' || strchr(line, '\n')) { /* labels answers nothing, or twice */
        fprintf(stderr, "not one line with a label\n");
        return 1;
    }
    if (fprintf(to, "%s\n", line) < 0 || fflush(to) || !fgets(head, sizeof head, from))
        return -1;
    if (strcmp(head, "P1\n") != 0) {
        fputs(head, stderr);
        return strncmp(head, "labels: ", 8) ? 1 : -1;
    }
    if (!fgets(head, sizeof head, from) || sscanf(head, "%zu %zu", &width, &height) != 2)
        return -1;
    printf("P1\n%s", head);
    /* A row has its pixels, and a line end after each 70 of them and after the last one. */
    for (size_t left = height * (width + (width + 69) / 70); left > 0; left--) {
        int byte = getc(from);
        if (byte == EOF)
            return -1;
        putchar(byte);
    }
    return 0;
}

int main(int count, char **lines) {
    FILE *to, *from;
    int status = 0;
    signal(SIGPIPE, SIG_IGN); /* where labels has ended a write fails, and ends no program */
    if (start(&to, &from))
        return 2;
    for (int i = 1; i < count; i++)
        switch (draw(to, from, lines[i])) {
        case -1:
            fprintf(stderr, "labels has ended\n");
            return 2;
        case 1:
            status = 1;
        }
    return status;
}
