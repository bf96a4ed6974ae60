/* A board with its question, as `boards.py` writes them: PATH.pha is the board file, PATH.input a count byte, the asked atoms and an
   allowance of two bytes, low byte first. */
#ifndef ASKED_H
#define ASKED_H

#include <stddef.h>
#include <stdint.h>

typedef struct {
    const char *name;
    uint8_t file[8192], atom[8];
    size_t length, count;
    unsigned allowance;
} asked;

/* Ends the program where a file cannot be opened. */
void read_asked(const char *path, asked *to);

#endif
