/* Vilthomm: the fault ranking of a training board, for C99 and C++.

   A board file says which faults a board can have, how likely each is, and which rules lead from faults to readings. Load it once. Open a
   question: the readings of the probes, all to be explained. Run the search in portions as large as you like; after each run the search has
   the most likely explanations, as many as it has found, and the run's answer has both ends of a bound on how likely the reading was.

     load       a board file                  gives a table
     open       a question on a table         gives a search
     run        a search over its table       gives the search some steps on, and both ends of the bound
     share      a line of a search            gives its part of the low end, in thousandths
     yes_or_no  an atom in a board state      gives yes or no
     total      a table                       gives W, of which weights and ends are parts
     listing    a board file and an input     gives the text of one whole run

   An atom is a number that stands for something that is so or not, a fault or a reading. A hypothesis is an atom with a weight. A declaration is a
   group of hypotheses of which just one is so, as a part is good, open or shorted. A rule has a head, an atom that is so if all its body atoms are. A board
   state chooses one hypothesis of each declaration. An explanation is a set of hypotheses from which the rules lead to every asked atom, and
   none of which can be spared; each is a line of the list.

   WHAT HOLDS OF EVERY CALL
   - Every input is taken, tested and answered, whatever bytes it has, and every call returns. A refusal is a number (see below).
   - A pointer and a length lend bytes until the call returns. They are only read, but for `text` of vilthomm_listing. Where the length is 0 the pointer
     is not followed and may be NULL.
   - Three things cannot be tested and are for the caller to see to: the bytes lent are there; `text` of vilthomm_listing overlaps neither of the other
     two; and the stack suffices (see below).
   - C cuts an argument to its type without a word before the function has it: an `int` of 100,000 handed in as an allowance is 34,464. Ranges stand at
     the functions; -Wconversion of the compiler warns.
   - Structs go in and come back by value. What a struct holds is yours to copy, to keep and to drop; nothing has to be closed.
   - There is no state beside the arguments: no globals, no heap, no locks, no files, no floating point. So any number of threads may call at the same
     time, and equal arguments have equal answers.
   - Tables and searches are for reading. A table that no file loads to is refused with 20, a search that is not well formed with 34. A search that is
     well formed and that no run left is run as it stands, but its lines and ends then say nothing of the board.

   HOW LONG A CALL CAN TAKE, AND HOW MUCH STACK
   In basic steps of the machine (an addition, a comparison, a load, a store), on any input, counted by hand: from the sources, and what is done for each atom and each two lines
   of a search from the machine code. (Executed, as instructions: a share over 512 entries and 256 lines of 32 atoms 1,440,000; the text of a listing of 256 lines of 32 atoms
   452,000.) The stack is measured, on boards that take most: what the function itself writes, and in brackets with the arguments and the result that the caller holds for it.

                            basic steps, at most some                   KiB of stack
     vilthomm_load          130,000, however long the file                14.3   (17.3)
     vilthomm_open          90,000                                        59.3   (88.3)
     vilthomm_run           2,500,000, and 1,500,000 for each step        95.5  (150.6)
     vilthomm_share         2,500,000                                     58.6   (87.6)
     vilthomm_yes_or_no     330,000                                       11.4   (14.3)
     vilthomm_total         90,000                                         7.2   (10.2)
     vilthomm_listing       load's, open's and run's, 700,000 more       126.6  (126.6)

   The bound of a step is that of an atom with 256 rules. `bench/run` measures, in processor time on a current x86-64, along whole stretches at 480 to 512
   entries on five boards (bench/README.md has its figures; these times are of an older archive and a
   quicker machine, the ratios of this archive and the one before it, on two machines):
   - A step takes 30 to 130 nanoseconds on average. A run tests its table and its search each time: beside its steps it takes up to 85 to 150 microseconds,
     by the board, as long as 1,200 to 4,000 steps there, and less over a small search. So a run of 1,000 steps takes up to 120 to 270 microseconds, most of
     it tests. Few long runs are cheaper than many short ones.
   - A share makes the same tests, at each call: up to 85 to 145 microseconds. Of a whole list, line[VILTHOMM_LINE_WEIGHT][i] * 1000 / low of a run's answer
     is the same.
   - In long runs the library takes 1.9 to 4.4 times the steps a second of plain C with its entries sorted in one array, 0.8 to 1.6 times those of the same
     C with an array that has their order, and 0.2 to 1.2 times those of the fastest C that was found. That C tests nothing.
   - On the dearest board that was found (217 rules of one atom, pending again and again beside 500 entries), runs of 1,000 steps take up to 20 microseconds
     a step, so 20 milliseconds. That no board is dearer is not claimed.

   The functions are in libvilthomm.a, made by `make` in target/, for x86-64 Linux. Of the C library it calls memcpy and memset. docs/FIRMWARE.md says how this
   takes the place of a C module, docs/FORMAT.md has the board file byte by byte and what to do about each refusal. "Document 01" is the product's scope; its
   numbers and words stand below. */
#ifndef VILTHOMM_H
#define VILTHOMM_H

/* Before anything is included: what is included may not be there for another processor. */
#if !defined __x86_64__ || defined _WIN32
#error "vilthomm.h: libvilthomm.a is for x86-64 with the calling convention of Linux, and this compiler makes code for another processor or convention"
#endif
#if __BYTE_ORDER__ != __ORDER_LITTLE_ENDIAN__
#error "vilthomm.h: the words of libvilthomm.a are little-endian, and those of this compiler are not"
#endif

#include <stddef.h>
#include <stdint.h>

/* Twice: a C++98 without a C library has no SIZE_MAX. */
#if (defined SIZE_MAX && SIZE_MAX != UINT64_MAX) || (defined __SIZEOF_SIZE_T__ && __SIZEOF_SIZE_T__ != 8)
#error "vilthomm.h: libvilthomm.a has a size_t of 64 bits, and that of this compiler has another size (as with -mx32)"
#endif

#ifdef __cplusplus
extern "C" {
#endif

/* Which library and command this is; CHANGELOG.md says what each version is. */
#define VILTHOMM_VERSION "0.2.1"

/* Which layout the structs have; it goes up whenever one of them changes. The names that the linker sees carry it: vilthomm_run is vilthomm_run_layout_2 there.
   So a header and an archive whose structs differ do not link, and "undefined reference to vilthomm_run_layout_.." says that they are not of one version. */
#define VILTHOMM_LAYOUT 2

#define VILTHOMM_JOINED(name, layout) name##_layout_##layout
#define VILTHOMM_LINKED(name, layout) VILTHOMM_JOINED(name, layout)
#define vilthomm_load VILTHOMM_LINKED(vilthomm_load, VILTHOMM_LAYOUT)
#define vilthomm_open VILTHOMM_LINKED(vilthomm_open, VILTHOMM_LAYOUT)
#define vilthomm_run VILTHOMM_LINKED(vilthomm_run, VILTHOMM_LAYOUT)
#define vilthomm_share VILTHOMM_LINKED(vilthomm_share, VILTHOMM_LAYOUT)
#define vilthomm_yes_or_no VILTHOMM_LINKED(vilthomm_yes_or_no, VILTHOMM_LAYOUT)
#define vilthomm_total VILTHOMM_LINKED(vilthomm_total, VILTHOMM_LAYOUT)
#define vilthomm_listing VILTHOMM_LINKED(vilthomm_listing, VILTHOMM_LAYOUT)

/* ---- sizes */

enum {
    VILTHOMM_MOST_ATOMS = 128,       /* of which any may be hypotheses */
    VILTHOMM_MOST_DECLARATIONS = 32, /* of 1 to 16 hypotheses each */
    VILTHOMM_MOST_RULES = 256,
    VILTHOMM_MOST_BODY = 8,      /* body atoms of a rule */
    VILTHOMM_MOST_ASKED = 8,     /* atoms of a question */
    VILTHOMM_MOST_ENTRIES = 512, /* partial proofs of a search */
    VILTHOMM_MOST_LINES = 256    /* explanations that a search lists */
};

/* Bytes of a board file that decide what loading answers: of a longer file no more need be read. Bytes that every listing fits into. */
#define VILTHOMM_FILE_BYTES 3334
#define VILTHOMM_TEXT_BYTES 37203

/* ---- numbers

   0 says that nothing was refused. How a run ended is one of these: */
enum {
    VILTHOMM_DONE = 0, /* nothing is left to search: the list has every explanation, and both ends are the exact weight */
    VILTHOMM_MORE = 1  /* the allowance is used: run again to go on */
};

/* Any other ending of a run, and any number but 0 of another call, is a refusal, with its number and its word in document 01. Those to 12 are of a board
   file; beside them stands the place of the record, in bytes from 0. Those from 20 to 25, 34 and 36 are of what else is handed in. With 31, 32 and 33 a run
   does not take its next step. */
enum {
    VILTHOMM_REFUSED_CUT_OFF = 1,      /* cut off: the file stops within a record, or before the end record */
    VILTHOMM_REFUSED_KIND = 2,         /* kind: a kind byte that is not 1 to 4 */
    VILTHOMM_REFUSED_MISPLACED = 3,    /* misplaced: first record not kind 1, a second kind 1, kind 2 after kind 3, a byte after the end */
    VILTHOMM_REFUSED_ATOM = 4,         /* atom: count 0 or over 128; an atom (255 in a body place excepted) not below the count */
    VILTHOMM_REFUSED_DECLARATION = 5,  /* declaration: number over 31, or not the last one or the next */
    VILTHOMM_REFUSED_HYPOTHESIS = 6,   /* hypothesis: atom already a hypothesis, or the 17th in its declaration */
    VILTHOMM_REFUSED_WEIGHT = 7,       /* weight: weight 0 */
    VILTHOMM_REFUSED_PRODUCT = 8,      /* product: W would pass 1,000,000,000,000,000 */
    VILTHOMM_REFUSED_BODY = 9,         /* body: a filled place after an empty one, or not strictly ascending */
    VILTHOMM_REFUSED_HEAD = 10,        /* head: head is a hypothesis */
    VILTHOMM_REFUSED_LEVEL = 11,       /* level: a body atom not below the head */
    VILTHOMM_REFUSED_RULES = 12,       /* rules: the 257th rule */
    VILTHOMM_REFUSED_TABLE = 20,       /* table: a table that no file loads to */
    VILTHOMM_REFUSED_LENGTH = 21,      /* length: a question of 0 or more than 8 atoms */
    VILTHOMM_REFUSED_ASKED_ATOM = 22,  /* asked atom: an asked atom not below the count */
    VILTHOMM_REFUSED_ASKED_ORDER = 23, /* asked order: asked atoms not strictly ascending */
    VILTHOMM_REFUSED_BOARD_STATE = 25, /* board state: not one choice per declaration, or a choice from elsewhere */
    VILTHOMM_REFUSED_STORE_FULL = 31,  /* store full: more than 512 entries, held and new ones, would be held after the step */
    VILTHOMM_REFUSED_OVERLAP = 32,     /* overlap: an explanation is next that is compatible with a listed one which it does not contain; so two
                                          different minimal explanations of the question are compatible, and their weights must not be added */
    VILTHOMM_REFUSED_LIST_FULL = 33,   /* list full: a 257th line */
    VILTHOMM_REFUSED_SEARCH = 34,      /* search: a search that is not well formed; no open over this table leaves such a one, nor a run that was not itself refused with 34 */
    VILTHOMM_REFUSED_LINE = 36         /* line: no such line */
};

/* ---- structs */

/* A board as it was loaded, hypotheses and rules in the order of the file. Room past a count is zero. */
typedef struct vilthomm_table {
    size_t atoms; /* how many there are; they are numbered from 0 */
    size_t hypotheses;
    size_t rules;
    uint8_t declaration[VILTHOMM_MOST_ATOMS]; /* of each hypothesis: its declaration, numbered from 0 */
    uint8_t atom[VILTHOMM_MOST_ATOMS];        /* its atom */
    uint32_t weight[VILTHOMM_MOST_ATOMS];     /* its weight */
    uint8_t head[VILTHOMM_MOST_RULES];        /* of each rule: its head */
    /* its eight places for body atoms, those of rule i from 8 * i on; 255 is an empty place */
    uint8_t body[VILTHOMM_MOST_RULES * VILTHOMM_MOST_BODY];
} vilthomm_table;

/* The words of an entry: entry[i][VILTHOMM_ENTRY_WEIGHT] is the weight of the entry at index i. */
enum {
    VILTHOMM_ENTRY_WEIGHT = 0,
    VILTHOMM_ENTRY_CHOSEN_LOW = 1, /* the hypotheses that it has chosen */
    VILTHOMM_ENTRY_CHOSEN_HIGH = 2,
    VILTHOMM_ENTRY_PENDING_LOW = 3, /* the atoms that it has still to explain */
    VILTHOMM_ENTRY_PENDING_HIGH = 4,
    VILTHOMM_ENTRY_WORDS = 5
};

/* The columns of the lines, here before the index: line[VILTHOMM_LINE_WEIGHT][i] is the weight of the line at index i, and the weights of all lines stand
   side by side. */
enum {
    VILTHOMM_LINE_WEIGHT = 0,
    VILTHOMM_LINE_LOW = 1, /* its hypotheses */
    VILTHOMM_LINE_HIGH = 2,
    VILTHOMM_LINE_WORDS = 3
};

/* A search: its entries (partial proofs) and the lines it has listed. A set of atoms is two words: atom a is bit a of the low word, or bit a - 64
   of the high one. Room past a count is zero.

   Line n of the list, counted from 1, stands at index n - 1: its weight, and the hypotheses that explain the reading. The lines are in order:
   the larger weight first; of equal weights the smaller set; of equally many atoms the one whose ascending list of atoms comes first in dictionary
   order. The entry that goes first stands at the highest used index. */
typedef struct vilthomm_search {
    size_t entries;
    size_t lines;
    uint64_t entry[VILTHOMM_MOST_ENTRIES][VILTHOMM_ENTRY_WORDS];
    uint64_t line[VILTHOMM_LINE_WORDS][VILTHOMM_MOST_LINES];
} vilthomm_search;

/* What vilthomm_load answers. Accepted: number and place 0. Refused: the number, the place in the file, and the table whose every field is 0. */
typedef struct vilthomm_loading {
    uint64_t number;
    size_t place;
    vilthomm_table table;
} vilthomm_loading;

/* What vilthomm_open answers. Accepted: number 0. Refused: the number, and the search whose every field is 0. */
typedef struct vilthomm_opening {
    uint64_t number;
    vilthomm_search search;
} vilthomm_opening;

/* What vilthomm_run answers: the search that it leaves; how it ended, VILTHOMM_DONE, VILTHOMM_MORE or a refusal's number; how many steps it took; and
   both ends of the bound, parts of W: the weight of the reading is at least `low` and at most `high`. Refused with 20 or 34: the search as it was
   handed in, and steps and ends 0. Refused with 31, 32 or 33: the search after the last step that was taken, with its ends, which hold as they stand. */
typedef struct vilthomm_answer {
    vilthomm_search search;
    uint64_t ending;
    uint64_t steps;
    uint64_t low;
    uint64_t high;
} vilthomm_answer;

/* What vilthomm_share answers. Number 0: the share. Refused: the number, and 0. */
typedef struct vilthomm_share_answer {
    uint64_t number;
    uint64_t thousandths;
} vilthomm_share_answer;

/* What vilthomm_yes_or_no answers. Number 0: 1 for yes, 0 for no. Refused: the number, and 0. */
typedef struct vilthomm_holds_answer {
    uint64_t number;
    uint64_t holds;
} vilthomm_holds_answer;

/* What vilthomm_total answers. Number 0: W. Refused: the number, and 0. */
typedef struct vilthomm_total_answer {
    uint64_t number;
    uint64_t total;
} vilthomm_total_answer;

/* ---- functions */

/* Loads a board file that stands in memory. Lends: `length` bytes of the file, read. Refuses with 1 to 12; the first failing record decides.
   A file that would not open is one of length 0: refused with 1 at 0. Of a file longer than VILTHOMM_FILE_BYTES bytes the first so many are enough. */
vilthomm_loading vilthomm_load(const uint8_t *file, size_t length);

/* Opens a question: `count` atoms, 1 to 8, strictly ascending, all to hold. Lends: the atoms, a byte each, read: 0 to 255, and C cuts a
   larger number that is stored there without a word. Refuses with 20, 21, 22, 23, tested in that order. The search has one entry and no line yet. */
vilthomm_opening vilthomm_open(vilthomm_table table, const uint8_t *atoms, size_t count);

/* Takes steps until the allowance is used, nothing is left or a step is refused. Lends nothing. Refuses with 20 or 34, tested in that order, or
   stops before a step that is refused with 31, 32 or 33. Hand in the table that the question was opened on, and the search that open or the last run left.
   The lines that were there stay where they are, and new ones come after them. However the steps are cut into runs, the lines, the ends and the sum of the
   steps come out the same (tested, not proved). A search that was refused with 31, 32 or 33 stays as good as it was; a further run with an allowance of 1 or
   more is refused so again and takes no step. The allowance is 0 to 65,535; C cuts a larger number without a word. An allowance of 0 tells the ends of a
   search, and answers done or more. */
vilthomm_answer vilthomm_run(vilthomm_table table, vilthomm_search search, uint16_t allowance);

/* The share of a line, counted from 1, in thousandths of the low end, rounded down. Lends nothing. Refuses with 20, 34, 36, tested in that order. Each call
   tests the table and the whole search, as a run does. */
vilthomm_share_answer vilthomm_share(vilthomm_table table, vilthomm_search search, size_t line);

/* Does the atom hold in the board state? Lends: the state's `count` atoms, read: one hypothesis of each declaration, in the order of the declarations.
   Refuses with 20, 25, 22, tested in that order. The atom is 0 to 255; C cuts a larger number without a word, 263 to 7. */
vilthomm_holds_answer vilthomm_yes_or_no(vilthomm_table table, const uint8_t *state, size_t count, uint8_t atom);

/* W of the table, the product of the totals of its declarations, 1 to 1,000,000,000,000,000: a weight divided by W is a probability. Lends nothing.
   Refuses with 20. */
vilthomm_total_answer vilthomm_total(vilthomm_table table);

/* One whole run as text: loads the file, opens the question, runs it and writes the listing. Lends: the file's bytes, read; the input's, read: a count
   byte, the asked atoms, and an allowance in two bytes, low byte first, more bytes being passed over; and `room` bytes of `text`, written, which neither
   of the others may overlap. Comes back: how many bytes of `text` were written, from the first on; those after them stay as they were. With less room than
   VILTHOMM_TEXT_BYTES nothing is written and 0 comes back, and never else. There are no numbers here; refusals stand in the text:

     total W                                             refused N at P         where the file is refused
     W A A ..          a line: its weight, its atoms     refused N              where the question is, also with 21 where the input is too short
     low L high H steps N done                           (or more, or the number of the run's refusal in its last place) */
size_t vilthomm_listing(const uint8_t *file, size_t file_length, const uint8_t *input, size_t input_length, uint8_t *text, size_t room);

/* ---- the layout that the library has, held to at compile time */

#define VILTHOMM_OTHERWISE "vilthomm.h: this compiler lays a struct out in another way than libvilthomm.a"
#if defined __cplusplus && __cplusplus >= 201103L
#define VILTHOMM_ASSERT(name, condition) static_assert(condition, VILTHOMM_OTHERWISE)
#elif !defined __cplusplus && defined __STDC_VERSION__ && __STDC_VERSION__ >= 201112L
#define VILTHOMM_ASSERT(name, condition) _Static_assert(condition, VILTHOMM_OTHERWISE)
#else
#define VILTHOMM_ASSERT(name, condition) typedef char vilthomm_layout_of_##name[(condition) ? 1 : -1]
#endif
#define VILTHOMM_SIZE(type, bytes) VILTHOMM_ASSERT(type, sizeof(vilthomm_##type) == (bytes))
#define VILTHOMM_FIELD(type, field, at) VILTHOMM_ASSERT(type##_##field, offsetof(vilthomm_##type, field) == (at))
#define VILTHOMM_ROW(type, field, bytes) VILTHOMM_ASSERT(type##_##field##_row, sizeof((vilthomm_##type *)0)->field[0] == (bytes))

VILTHOMM_SIZE(table, 3096);
VILTHOMM_FIELD(table, atoms, 0);
VILTHOMM_FIELD(table, hypotheses, 8);
VILTHOMM_FIELD(table, rules, 16);
VILTHOMM_FIELD(table, declaration, 24);
VILTHOMM_FIELD(table, atom, 152);
VILTHOMM_FIELD(table, weight, 280);
VILTHOMM_FIELD(table, head, 792);
VILTHOMM_FIELD(table, body, 1048);

VILTHOMM_SIZE(search, 26640);
VILTHOMM_FIELD(search, entries, 0);
VILTHOMM_FIELD(search, lines, 8);
VILTHOMM_FIELD(search, entry, 16);
VILTHOMM_ROW(search, entry, 40);
VILTHOMM_FIELD(search, line, 20496);
VILTHOMM_ROW(search, line, 2048);

VILTHOMM_SIZE(loading, 3112);
VILTHOMM_FIELD(loading, number, 0);
VILTHOMM_FIELD(loading, place, 8);
VILTHOMM_FIELD(loading, table, 16);

VILTHOMM_SIZE(opening, 26648);
VILTHOMM_FIELD(opening, number, 0);
VILTHOMM_FIELD(opening, search, 8);

VILTHOMM_SIZE(answer, 26672);
VILTHOMM_FIELD(answer, search, 0);
VILTHOMM_FIELD(answer, ending, 26640);
VILTHOMM_FIELD(answer, steps, 26648);
VILTHOMM_FIELD(answer, low, 26656);
VILTHOMM_FIELD(answer, high, 26664);

VILTHOMM_SIZE(share_answer, 16);
VILTHOMM_FIELD(share_answer, number, 0);
VILTHOMM_FIELD(share_answer, thousandths, 8);

VILTHOMM_SIZE(holds_answer, 16);
VILTHOMM_FIELD(holds_answer, number, 0);
VILTHOMM_FIELD(holds_answer, holds, 8);

VILTHOMM_SIZE(total_answer, 16);
VILTHOMM_FIELD(total_answer, number, 0);
VILTHOMM_FIELD(total_answer, total, 8);

#undef VILTHOMM_ROW
#undef VILTHOMM_FIELD
#undef VILTHOMM_SIZE
#undef VILTHOMM_ASSERT
#undef VILTHOMM_OTHERWISE

#ifdef __cplusplus
}
#endif

#endif
