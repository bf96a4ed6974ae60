/* Loads board files of more and more records, for callgrind to count what each load takes, and prints what came of it: how many records of a kind, and a sum over
   the bytes of the answer. */
#include <stdio.h>
#include <vilthomm.h>

static uint8_t file[VILTHOMM_FILE_BYTES];
static size_t length;
static vilthomm_loading loading;

static void put(size_t byte) { file[length++] = (uint8_t)byte; }

/* 128 atoms; hypotheses of weight 1 from atom 0 on, 16 a declaration; rules for the atoms from 64 on, with 0 to 8 body atoms in turn. */
static void load(const char *kind, size_t counted, size_t hypotheses, size_t rules)
{
    length = 0;
    put(1), put(VILTHOMM_MOST_ATOMS);
    for (size_t i = 0; i < hypotheses; i++)
        put(2), put(i / 16), put(i), put(1), put(0), put(0);
    for (size_t i = 0; i < rules; i++) {
        put(3), put(64 + i % 64);
        for (size_t place = 0; place < VILTHOMM_MOST_BODY; place++)
            put(place < i % (VILTHOMM_MOST_BODY + 1) ? place : 255);
    }
    put(4);
    loading = vilthomm_load(file, length);
    const unsigned char *bytes = (const unsigned char *)&loading;
    unsigned long sum = 0;
    for (size_t i = 0; i < sizeof loading; i++)
        sum = sum * 31 + bytes[i];
    printf("%s %zu %lu\n", kind, counted, sum);
}

int main(void)
{
    load("first", 0, 0, 0); /* finds the C library's functions */
    for (size_t n = 0; n <= VILTHOMM_MOST_ATOMS; n++)
        load("hypothesis", n, n, 0);
    for (size_t n = 0; n <= VILTHOMM_MOST_RULES; n++)
        load("rule", n, 64, n);
    return 0;
}
