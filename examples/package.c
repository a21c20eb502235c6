/* The package service's call: a text in, the label file out, in one function. */
#include <stdio.h>
#include "tinoweala.h"

static const char text[] =
    "%%MatrixMarket matrix coordinate pattern general\n"
    "% who refers to whom\n"
    "6 6 7\n"
    "1 2\n2 3\n3 1\n3 4\n4 5\n5 4\n6 6\n";

static uint8_t out[4096];

/* Calls with the first `given` bytes of the text and `room` bytes for the labels. */
static int64_t call(size_t given, size_t room) {
    return tinoweala_label_text((const uint8_t *)text, given, out, room);
}

int main(void) {
    size_t all = sizeof text - 1;
    int64_t bytes = call(all, sizeof out);
    printf("%d bytes\n", (int)bytes);
    for (int64_t i = 0; i < bytes; i++) {
        printf("%c", out[i]);
    }
    printf("exact room: %d\n", (int)call(all, (size_t)bytes));
    printf("one byte less: %d\n", (int)call(all, (size_t)bytes - 1));
    printf("without its last entry: %d\n", (int)call(all - 4, sizeof out));
    printf("no text: %d\n", (int)call(0, sizeof out));
    return 0;
}
