/* Draws one label as PNG: cc png.c $(pkg-config --cflags --libs labels libpng) && ./a.out > code.png */
#include <labels.h>
#include <png.h>

int main(void) {
    static const char data[] = "https://debian.org";
    static unsigned char bits[16384];
    labels_options options = LABELS_DEFAULTS;
    labels_dots dots;
    labels_answer answer;
    options.scale = 4;
    if (labels_bitmap(&options, LABELS_QR, data, sizeof data - 1, bits, 0, sizeof bits, &dots, &answer) != LABELS_OK) {
        fprintf(stderr, "%s\n", answer.message);
        return 1;
    }
    png_structp png = png_create_write_struct(PNG_LIBPNG_VER_STRING, NULL, NULL, NULL);
    png_infop info = png ? png_create_info_struct(png) : NULL;
    if (!info || setjmp(png_jmpbuf(png))) /* libpng comes back here if it cannot write */
        return 1;
    png_init_io(png, stdout);
    png_set_IHDR(png, info, dots.width, dots.height, 1, PNG_COLOR_TYPE_GRAY, PNG_INTERLACE_NONE,
                 PNG_COMPRESSION_TYPE_DEFAULT, PNG_FILTER_TYPE_DEFAULT);
    png_write_info(png, info);
    png_set_invert_mono(png); /* in PNG 0 is dark */
    for (size_t y = 0; y < dots.height; y++)
        png_write_row(png, bits + y * ((dots.width + 7) / 8));
    png_write_end(png, info);
    png_destroy_write_struct(&png, &info);
    return fflush(stdout) != 0;
}
