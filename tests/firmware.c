/* Calls every function of vilthomm.h on the items of some containers and prints what is answered, a line or more an item.

     firmware replay DIRECTORY    all containers of the directory but records.bin: load, total, yes-or-no, open, run, share
     firmware listings FILE       listing
     firmware sizes FILE          the sizes of vilthomm.h; load and listing by them

   The containers and the lines of replay are those of the program of this name (crates/replay/src/main.rt), whose driven.bin is here driven by load, open and run;
   those of listings and sizes are in tests/checks/firmware.py, which compares the lines with the enumerator's. After each call the bytes lent are compared with a copy, and
   what must be 0 beside a refusal is tested. */
#include "firmware/container.h"
#include <stdio.h>
#include <string.h>

static void board_item(void)
{
    vilthomm_loading loading = load_next();
    vilthomm_total_answer total = vilthomm_total(loading.table);
    expect(total.number == (loading.number ? VILTHOMM_REFUSED_TABLE : 0), "W of what was loaded");
    if (loading.number)
        print_refused_file(&loading);
    else
        print_last("accepted ", total.total);
}

static void state_item(void)
{
    vilthomm_loading loading = load_next();
    size_t count = (size_t)number(1);
    const uint8_t *state = part(count);
    vilthomm_holds_answer told = ask(loading.table, state, count, (uint8_t)number(1));
    if (told.number)
        print_last("refused ", told.number);
    else
        puts(told.holds ? "yes" : "no");
}

static void table_item(void)
{
    vilthomm_loading loading = load_next();
    unsigned field = (unsigned)number(1);
    size_t index = (size_t)number(2);
    vilthomm_total_answer total;
    set_in_table(&loading.table, field, index, number(4));
    total = vilthomm_total(loading.table);
    expect(total.number ? total.number == VILTHOMM_REFUSED_TABLE && total.total == 0 : total.total > 0, "W of a table");
    puts(total.number ? "no table" : "table");
}

/* A board file and an input, each after its length in two bytes, and the room in two bytes. What is not written is left as it was. */
static void listing_item(void)
{
    static uint8_t text[1 << 16], before[sizeof text];
    size_t file_length = (size_t)number(2), input_length, written, room;
    const uint8_t *file = part(file_length), *input;
    input_length = (size_t)number(2);
    input = part(input_length);
    room = (size_t)number(2);
    memset(text, 0xa5, sizeof text);
    memset(before, 0xa5, sizeof before);
    written = vilthomm_listing(file, file_length, input, input_length, text, room);
    lent_is_unchanged();
    expect(written <= room && !memcmp(text + written, before, sizeof text - written), "text past what was written");
    print_last("bytes ", written);
    fwrite(text, 1, written, stdout);
}

static void print_sizes(void)
{
    print_last("atoms ", VILTHOMM_MOST_ATOMS);
    print_last("declarations ", VILTHOMM_MOST_DECLARATIONS);
    print_last("rules ", VILTHOMM_MOST_RULES);
    print_last("body ", VILTHOMM_MOST_BODY);
    print_last("asked ", VILTHOMM_MOST_ASKED);
    print_last("entries ", VILTHOMM_MOST_ENTRIES);
    print_last("lines ", VILTHOMM_MOST_LINES);
    print_last("file ", VILTHOMM_FILE_BYTES);
    print_last("text ", VILTHOMM_TEXT_BYTES);
}

/* A listing in as much room as every listing fits into, or in less. */
static void list_in(const uint8_t *file, size_t length, size_t room)
{
    static const uint8_t input[] = {1, 0, 0, 0};
    static uint8_t text[VILTHOMM_TEXT_BYTES];
    size_t written = vilthomm_listing(file, length, input, sizeof input, text, room);
    print_last("bytes ", written);
    fwrite(text, 1, written, stdout);
}

static void load_first(const uint8_t *file, size_t length)
{
    vilthomm_loading loading = vilthomm_load(file, length);
    print_refused_file(&loading);
}

/* A board file after its length in two bytes: as many of its bytes as decide, one less, and a listing in each room. */
static void sizes_item(void)
{
    size_t length = (size_t)number(2);
    const uint8_t *file = part(length);
    expect(length >= VILTHOMM_FILE_BYTES, "a file that is too short for its last byte to decide");
    load_first(file, VILTHOMM_FILE_BYTES);
    load_first(file, VILTHOMM_FILE_BYTES - 1);
    list_in(file, VILTHOMM_FILE_BYTES, VILTHOMM_TEXT_BYTES);
    list_in(file, VILTHOMM_FILE_BYTES, VILTHOMM_TEXT_BYTES - 1);
    lent_is_unchanged();
}

/* Where a length is 0 a pointer may be NULL. */
static void lend_nothing(void)
{
    static const uint8_t lone[] = {1, 1, 4};
    vilthomm_loading nothing = vilthomm_load(NULL, 0), loading = vilthomm_load(lone, sizeof lone);
    expect(nothing.number == VILTHOMM_REFUSED_CUT_OFF && nothing.place == 0, "an empty file");
    expect(loading.number == 0, "a board of one atom");
    expect(vilthomm_open(loading.table, NULL, 0).number == VILTHOMM_REFUSED_LENGTH, "an empty question");
    expect(vilthomm_yes_or_no(loading.table, NULL, 0, 0).number == 0, "the board state of no declarations");
    expect(vilthomm_listing(NULL, 0, NULL, 0, NULL, 0) == 0, "no room for a listing");
}

int main(int count, char **words)
{
    lend_nothing();
    if (count == 3 && !strcmp(words[1], "replay")) {
        items(words[2], "/boards.bin", board_item);
        items(words[2], "/states.bin", state_item);
        items(words[2], "/tables.bin", table_item);
        items(words[2], "/runs.bin", search_item);
        items(words[2], "/handed.bin", search_item);
        items(words[2], "/shares.bin", search_item);
        items(words[2], "/changed.bin", search_item);
        items(words[2], "/driven.bin", driven_item);
    } else if (count == 3 && !strcmp(words[1], "listings")) {
        items(words[2], "", listing_item);
    } else if (count == 3 && !strcmp(words[1], "sizes")) {
        print_sizes();
        items(words[2], "", sizes_item);
    } else {
        fprintf(stderr, "use: firmware replay DIRECTORY, firmware listings|sizes FILE\n");
        return 2;
    }
    return 0;
}
