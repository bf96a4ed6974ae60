#include "container.h"
#include <stdio.h>
#include <stdlib.h>
#include <string.h>

enum { ROOM = 1 << 20 };

/* The bytes, a copy of them, and the place of the next. */
static uint8_t bytes[ROOM], kept[ROOM];
static size_t length, at;

void expect(int holds, const char *what)
{
    if (!holds) {
        fprintf(stderr, "%s, at byte %lu of the container\n", what, (unsigned long)at);
        exit(1);
    }
}

void lent_is_unchanged(void)
{
    expect(!memcmp(bytes, kept, length), "bytes that were lent have changed");
}

static void read_container(const char *directory, const char *name)
{
    char path[1024];
    FILE *file;
    snprintf(path, sizeof path, "%s%s", directory, name);
    file = fopen(path, "rb");
    if (!file) {
        perror(path);
        exit(1);
    }
    length = fread(bytes, 1, ROOM, file);
    expect(length < ROOM, "a container that is too long");
    fclose(file);
    memcpy(kept, bytes, length);
    at = 0;
}

size_t place(void)
{
    return at;
}

const uint8_t *part(size_t n)
{
    const uint8_t *start = bytes + at;
    expect(n <= length - at, "the container stops within an item");
    at += n;
    return start;
}

uint64_t number(size_t n)
{
    const uint8_t *digits = part(n);
    uint64_t value = 0;
    while (n-- > 0)
        value = value << 8 | digits[n];
    return value;
}

void items(const char *directory, const char *name, void item(void))
{
    read_container(directory, name);
    while (at < length)
        item();
}

void print_number(const char *before, uint64_t n)
{
    printf("%s%lu", before, (unsigned long)n);
}

void print_last(const char *before, uint64_t n)
{
    print_number(before, n);
    putchar('\n');
}
