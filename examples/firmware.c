/* The 001 board, asked for atom 7: prints what the listing program prints. From the top of the repository, after `make`:
     cc -std=c99 -Wall -Wextra -Iinclude examples/firmware.c target/libvilthomm.a -o target/example && target/example
   or after `make install`:
     cc -std=c99 -Wall -Wextra examples/firmware.c $(pkg-config --cflags --libs vilthomm) -o target/example && target/example
   The structs are static, so that the stack has to hold only what the calls need (docs/FIRMWARE.md, "Stack and memory"). */
#include <inttypes.h>
#include <stdio.h>
#include <vilthomm.h>

static const uint8_t asked[] = {7};
static uint8_t file[VILTHOMM_FILE_BYTES];
static vilthomm_loading loading;
static vilthomm_opening opening;
static vilthomm_answer ran;

int main(void)
{
    FILE *board = fopen("examples/001/board.pha", "rb");
    size_t length = board ? fread(file, 1, sizeof file, board) : 0;
    if (board)
        fclose(board);
    loading = vilthomm_load(file, length);
    if (loading.number) {
        printf("refused %" PRIu64 " at %zu\n", loading.number, loading.place);
        return 1;
    }
    opening = vilthomm_open(loading.table, asked, sizeof asked);
    if (opening.number) {
        printf("refused %" PRIu64 "\n", opening.number);
        return 1;
    }
    ran = vilthomm_run(loading.table, opening.search, 100);
    printf("total %" PRIu64 "\n", vilthomm_total(loading.table).total);
    for (size_t i = 0; i < ran.search.lines; i++) {
        uint64_t low = ran.search.line[VILTHOMM_LINE_LOW][i], high = ran.search.line[VILTHOMM_LINE_HIGH][i];
        printf("%" PRIu64, ran.search.line[VILTHOMM_LINE_WEIGHT][i]);
        for (int atom = 0; atom < VILTHOMM_MOST_ATOMS; atom++)
            if ((atom < 64 ? low >> atom : high >> (atom - 64)) & 1)
                printf(" %d", atom);
        printf("\n");
    }
    printf("low %" PRIu64 " high %" PRIu64 " steps %" PRIu64, ran.low, ran.high, ran.steps);
    if (ran.ending == VILTHOMM_DONE || ran.ending == VILTHOMM_MORE)
        printf(ran.ending == VILTHOMM_DONE ? " done\n" : " more\n");
    else
        printf(" %" PRIu64 "\n", ran.ending);
    return 0;
}
