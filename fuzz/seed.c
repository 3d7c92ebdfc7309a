/* Standard input: a text. Standard output: a seed of the harness, `I`, no numbers, and the text's image. Nothing for a refused text. */
#include "rolvenko.h"

#include <stdio.h>

int main(void) {
    static uint8_t text[ROLVENKO_TEXT_LIMIT + 1], image[ROLVENKO_IMAGE_ROOM];
    size_t length = fread(text, 1, sizeof text, stdin);
    uint64_t answer = rolvenko_translate(text, length, image, sizeof image);
    if (rolvenko_number(answer) == 0) {
        fwrite("I\0", 1, 2, stdout);
        fwrite(image, 1, rolvenko_count(answer), stdout);
    }
    return 0;
}
