/* archive FILE: writes the archive form of an image to standard output, in C. Where the image is refused, standard error says so, nothing
 * is written, and the exit status is 1; what cannot be read or written is said there too, with exit status 2. Built by examples/c/build. */
#include <stdio.h>

#include "cembuxola.h"
#include "file.h"

/* One byte more than an image may have, so that a longer file is refused as such. */
#define MOST_BYTES 65536
/* One entry, and one byte of the form, for each byte of the largest image: always enough. */
#define MOST_ENTRIES 65535
#define MOST_OUT 65535

static uint8_t image[MOST_BYTES];
static uint32_t map[MOST_ENTRIES];
static uint8_t out[MOST_OUT];
static uint32_t written[CEMBUXOLA_WRITTEN_NUMBERS];

int main(int count, char **arguments)
{
    if (count != 2) {
        fprintf(stderr, "usage: archive FILE\n");
        return 2;
    }
    const char *name = arguments[1];
    long length = read_file(name, image, MOST_BYTES);
    if (length < 0)
        return 2;
    unsigned number = cembuxola_archive(image, (size_t)length, map, MOST_ENTRIES, out, MOST_OUT, written, CEMBUXOLA_WRITTEN_NUMBERS);
    if (number != CEMBUXOLA_ACCEPTED) {
        fprintf(stderr, "%s: refused %u\n", name, number);
        return 1;
    }
    if (fwrite(out, 1, written[0], stdout) != written[0] || fflush(stdout) != 0) {
        perror("standard output");
        return 2;
    }
    return 0;
}
