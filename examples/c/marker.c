/* Marks the hand-in in the current folder by the library, and prints the line of the verdict. With the word `numbers` it
   prints the verdict as numbers. */

#include <stdio.h>
#include <stdlib.h>
#include <string.h>

#include "vuhlaten.h"

/* One byte more than counts, so that a longer file is handed over as one. */
#define READ 65536

/* The first bytes of a file; NULL and length 0 if it is missing. */
struct file {
    const uint8_t *bytes;
    size_t length;
};

/* Reads a file into `room`, which has READ bytes. */
static struct file read_file(const char *name, uint8_t *room)
{
    struct file result = {NULL, 0};
    FILE *file = fopen(name, "rb");
    if (file == NULL)
        return result;
    result.bytes = room;
    result.length = fread(room, 1, READ, file);
    if (ferror(file)) {
        perror(name);
        exit(1);
    }
    fclose(file);
    return result;
}

static void print_numbers(struct vuhlaten_verdict verdict)
{
    printf("kind %u, number %u, place %u, count %u\n", (unsigned)verdict.kind, (unsigned)verdict.number,
           (unsigned)verdict.place, (unsigned)verdict.count);
}

int main(int argc, char **argv)
{
    static uint8_t book_room[READ], steps_room[READ], model_room[READ], pairs_room[READ];
    int numbers = argc > 1 && strcmp(argv[1], "numbers") == 0;
    struct file book = read_file("book.bin", book_room);
    struct file steps = read_file("steps.bin", steps_room);
    uint8_t line[VUHLATEN_LINE];
    size_t length;
    if (steps.bytes != NULL) {
        if (numbers) {
            print_numbers(vuhlaten_judge_tableau(book.bytes, book.length, steps.bytes, steps.length));
            return 0;
        }
        length = vuhlaten_mark_tableau(book.bytes, book.length, steps.bytes, steps.length, line, sizeof line);
    } else {
        struct file model = read_file("model.bin", model_room);
        struct file pairs = read_file("pairs.bin", pairs_room);
        if (numbers) {
            print_numbers(vuhlaten_judge_model(book.bytes, book.length, model.bytes, model.length, pairs.bytes,
                                               pairs.length));
            return 0;
        }
        length = vuhlaten_mark_model(book.bytes, book.length, model.bytes, model.length, pairs.bytes, pairs.length, line,
                                     sizeof line);
    }
    return fwrite(line, 1, length, stdout) == length ? 0 : 1;
}
