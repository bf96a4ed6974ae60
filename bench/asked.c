#include "asked.h"
#include <stdio.h>
#include <stdlib.h>
#include <string.h>

static size_t read_file(const char *name, const char *ending, uint8_t *bytes, size_t room)
{
    char path[512];
    snprintf(path, sizeof path, "%s%s", name, ending);
    FILE *f = fopen(path, "rb");
    if (!f) {
        perror(path);
        exit(1);
    }
    size_t length = fread(bytes, 1, room, f);
    fclose(f);
    return length;
}

void read_asked(const char *path, asked *to)
{
    uint8_t input[1 + sizeof to->atom + 2];
    const char *slash = strrchr(path, '/');
    to->name = slash ? slash + 1 : path;
    to->length = read_file(path, ".pha", to->file, sizeof to->file);
    read_file(path, ".input", input, sizeof input);
    to->count = input[0];
    memcpy(to->atom, input + 1, to->count);
    to->allowance = input[1 + to->count] | (unsigned)input[2 + to->count] << 8;
}
