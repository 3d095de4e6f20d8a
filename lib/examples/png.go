// Draws a line of labels(1) as PNG: go run png.go 'qr,level=Q HELLO'
package main

/*
#cgo pkg-config: labels
#include <stdlib.h>
#include <labels.h>
*/
import "C"

import (
	"errors"
	"image"
	"image/png"
	"log"
	"os"
	"unsafe"
)

// picture returns the picture of a line at a scale of 1 to 8, or why there is none.
func picture(line string, scale int) (image.Image, error) {
	var options C.labels_options
	var dots C.labels_dots
	var answer C.labels_answer
	C.labels_defaults(&options)
	options.scale = C.uint32_t(scale)
	text := C.CBytes([]byte(line))
	defer C.free(text)
	size := C.size_t(len(line))
	// A call without room asks for the dots.
	code := C.labels_bitmap_line(&options, text, size, nil, 0, 0, &dots, &answer)
	if code != C.LABELS_NO_ROOM {
		return nil, errors.New(C.GoString(&answer.message[0]))
	}
	stride := (int(dots.width) + 7) / 8
	bits := make([]byte, stride*int(dots.height))
	room := (*C.uchar)(unsafe.Pointer(&bits[0]))
	C.labels_bitmap_line(&options, text, size, room, C.size_t(stride), C.size_t(len(bits)), &dots, &answer)
	drawn := image.NewGray(image.Rect(0, 0, int(dots.width), int(dots.height)))
	for i := range drawn.Pix {
		x, y := i%drawn.Stride, i/drawn.Stride
		isDark := bits[y*stride+x/8] >> (7 - x%8) & 1
		drawn.Pix[i] = 255 * (1 - isDark)
	}
	return drawn, nil
}

func main() {
	drawn, err := picture(os.Args[1], 4)
	if err == nil {
		err = png.Encode(os.Stdout, drawn)
	}
	if err != nil {
		log.Fatal(err)
	}
}
