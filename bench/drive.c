/* The stack of `bounds::drive`, which has no name in the firmware's archive: a row like those of the entry points.

     drive BOARD     where BOARD.pha is a board file and BOARD.input its question */
#include "../include/vilthomm.h"
#include "asked.h"
#include "stack.h"
#include <stdio.h>

/* Hands back the search after the runs. */
typedef vilthomm_search drive_function(const uint8_t *file, size_t length, const uint8_t *question, size_t count, const uint16_t *allowance,
                                       size_t runs);

/* In the archive of the crate `driving`. */
drive_function vilthomm_drive;

static const uint16_t allowance[] = {1000, 0, 65535};
static asked board;
static drive_function *function;
static vilthomm_search result;

static vilthomm_search no_drive(const uint8_t *file, size_t length, const uint8_t *question, size_t count, const uint16_t *handed,
                                size_t runs)
{
    (void)file, (void)length, (void)question, (void)count, (void)handed, (void)runs;
    return (vilthomm_search){0};
}

static void use(bool library)
{
    function = library ? vilthomm_drive : no_drive;
}

static void *drive(void *unused)
{
    result = function(board.file, board.length, board.atom, board.count, allowance, sizeof allowance / sizeof *allowance);
    return unused;
}

int main(int count, char **names)
{
    if (count != 2)
        return 2;
    read_asked(names[1], &board);
    bool met = print_stack("drive", drive, use);
    if (result.lines == 0) {
        fprintf(stderr, "%s: the driver listed nothing\n", board.name);
        return 1;
    }
    return met ? 0 : 1;
}
