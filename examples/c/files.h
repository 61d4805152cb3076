/* What the examples share: memory that is there, and a file's bytes. */
#ifndef FILES_H
#define FILES_H

#include <stdint.h>
#include <stdio.h>
#include <stdlib.h>

/* Zeroed, and never NULL, also for none. */
static void *room(size_t count, size_t size) {
    void *p = calloc(count + 1, size);
    if (!p) {
        fputs("no memory\n", stderr);
        exit(2);
    }
    return p;
}

static uint8_t *whole_file(const char *name, size_t *length) {
    FILE *file = fopen(name, "rb");
    size_t size = 4096, got;
    uint8_t *bytes = room(size, 1);
    *length = 0;
    if (!file) {
        perror(name);
        exit(2);
    }
    while ((got = fread(bytes + *length, 1, size - *length, file)) > 0) {
        *length += got;
        if (*length == size) {
            bytes = realloc(bytes, size *= 2);
            if (!bytes) exit(2);
        }
    }
    fclose(file);
    return bytes;
}

#endif
