/* What the examples share: reading a file. */
#ifndef FILE_H
#define FILE_H

#include <stddef.h>
#include <stdint.h>
#include <stdio.h>

/* Reads the file into a buffer of so many bytes, as far as either goes. Answers the count of bytes, or -1 where the file cannot be read, and
 * then standard error says why. */
static long read_file(const char *name, uint8_t *bytes, size_t most)
{
    FILE *file = fopen(name, "rb");
    if (file == NULL) {
        perror(name);
        return -1;
    }
    long length = (long)fread(bytes, 1, most, file);
    if (ferror(file)) {
        perror(name);
        length = -1;
    }
    fclose(file);
    return length;
}

#endif
