/* The stack of each entry point of the library. */
#include "calls.h"
#include "stack.h"
#include <string.h>

typedef vilthomm_loading load_function(const uint8_t *, size_t);
typedef vilthomm_opening open_function(vilthomm_table, const uint8_t *, size_t);
typedef vilthomm_answer run_function(vilthomm_table, vilthomm_search, uint16_t);
typedef vilthomm_share_answer share_function(vilthomm_table, vilthomm_search, size_t);
typedef vilthomm_holds_answer yes_or_no_function(vilthomm_table, const uint8_t *, size_t, uint8_t);
typedef vilthomm_total_answer total_function(vilthomm_table);
typedef size_t listing_function(const uint8_t *, size_t, const uint8_t *, size_t, uint8_t *, size_t);

/* What is handed to the calls, and what they are made of. */
static struct {
    asked board;
    uint8_t input[1 + VILTHOMM_MOST_ASKED + 2];
    vilthomm_table table, ladder;
    vilthomm_search search;
    uint16_t allowance;
    load_function *load;
    open_function *open;
    run_function *run;
    share_function *share;
    yes_or_no_function *yes_or_no;
    total_function *total;
    listing_function *listing;
} call;

static union {
    vilthomm_loading loading;
    vilthomm_opening opening;
    vilthomm_answer answer;
    vilthomm_share_answer share;
    vilthomm_holds_answer holds;
    vilthomm_total_answer total;
    size_t written;
} result;

static uint8_t text[VILTHOMM_TEXT_BYTES];

static void *load(void *unused)
{
    result.loading = call.load(call.board.file, call.board.length);
    return unused;
}

static void *open_question(void *unused)
{
    result.opening = call.open(call.table, call.board.atom, call.board.count);
    return unused;
}

static void *run(void *unused)
{
    result.answer = call.run(call.table, call.search, call.allowance);
    return unused;
}

static void *share(void *unused)
{
    result.share = call.share(call.table, call.search, 1);
    return unused;
}

static void *yes_or_no(void *unused)
{
    result.holds = call.yes_or_no(call.ladder, NULL, 0, 127);
    return unused;
}

static void *total(void *unused)
{
    result.total = call.total(call.table);
    return unused;
}

static void *listing(void *unused)
{
    result.written = call.listing(call.board.file, call.board.length, call.input, sizeof call.input, text, sizeof text);
    return unused;
}

static vilthomm_loading no_load(const uint8_t *file, size_t length)
{
    (void)file, (void)length;
    return (vilthomm_loading){0};
}

static vilthomm_opening no_open(vilthomm_table table, const uint8_t *asked, size_t count)
{
    (void)table, (void)asked, (void)count;
    return (vilthomm_opening){0};
}

static vilthomm_answer no_run(vilthomm_table table, vilthomm_search search, uint16_t allowance)
{
    (void)table, (void)search, (void)allowance;
    return (vilthomm_answer){0};
}

static vilthomm_share_answer no_share(vilthomm_table table, vilthomm_search search, size_t line)
{
    (void)table, (void)search, (void)line;
    return (vilthomm_share_answer){0};
}

static vilthomm_holds_answer no_yes_or_no(vilthomm_table table, const uint8_t *state, size_t count, uint8_t atom)
{
    (void)table, (void)state, (void)count, (void)atom;
    return (vilthomm_holds_answer){0};
}

static vilthomm_total_answer no_total(vilthomm_table table)
{
    (void)table;
    return (vilthomm_total_answer){0};
}

static size_t no_listing(const uint8_t *file, size_t length, const uint8_t *input, size_t input_length, uint8_t *to, size_t room)
{
    (void)file, (void)length, (void)input, (void)input_length, (void)to, (void)room;
    return 0;
}

/* A board of 128 atoms, each but the first from the one below it: the atom tests stand as deep in each other as they can. */
static vilthomm_table ladder(void)
{
    uint8_t file[2 + 127 * 10 + 1] = {1, 128};
    memset(file + 2, 255, sizeof file - 2);
    for (int atom = 1; atom < 128; atom++) {
        uint8_t *rule = file + 2 + (atom - 1) * 10;
        rule[0] = 3;
        rule[1] = (uint8_t)atom;
        rule[2] = (uint8_t)(atom - 1);
    }
    file[sizeof file - 1] = 4;
    return vilthomm_load(file, sizeof file).table;
}

static void use(bool library)
{
    call.load = library ? vilthomm_load : no_load;
    call.open = library ? vilthomm_open : no_open;
    call.run = library ? vilthomm_run : no_run;
    call.share = library ? vilthomm_share : no_share;
    call.yes_or_no = library ? vilthomm_yes_or_no : no_yes_or_no;
    call.total = library ? vilthomm_total : no_total;
    call.listing = library ? vilthomm_listing : no_listing;
}

bool print_calls(const asked *board, const vilthomm_search *full)
{
    call.board = *board;
    call.table = vilthomm_load(board->file, board->length).table;
    call.ladder = ladder();
    call.search = *full;
    call.allowance = 1000;
    memset(call.input, 0xff, sizeof call.input);
    call.input[0] = (uint8_t)board->count;
    memcpy(call.input + 1, board->atom, board->count);
    bool met = print_stack("load", load, use);
    met &= print_stack("open", open_question, use);
    met &= print_stack("run", run, use);
    met &= print_stack("share", share, use);
    met &= print_stack("yes_or_no", yes_or_no, use);
    met &= print_stack("total", total, use);
    met &= print_stack("listing", listing, use);
    return met;
}
