/* Draws one label as plain PBM: cc draw.c $(pkg-config --cflags --libs labels) && ./a.out | pnmtopng > code.png */
#include <labels.h>
#include <stdio.h>

int main(void) {
    char picture[16384];
    labels_answer answer;
    if (labels_draw(NULL, LABELS_EAN13, "4006381333931", 13, picture, sizeof picture, &answer) != LABELS_OK) {
        fprintf(stderr, "%s\n", answer.message);
        return 1;
    }
    fwrite(picture, 1, answer.length, stdout);
    return 0;
}
