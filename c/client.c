/*
 * A client of the unit, as a cabinet's firmware might be.
 *
 *   client words          runs the script on standard input on memories of words
 *   client packed         the same on packed memories
 *   client blocks-words   runs a script that has one table for all its lines, of words
 *   client blocks-packed  the same on a packed table
 *   client refusals       tries memories of wrong lengths and wrong modes, a line each
 *
 * A line of a script is a request: capital hexadecimal pairs parted by one space,
 * at most 1,024 of them; an empty line is an empty request. The reply is printed
 * in the same way, and `bad line` for any other line. After each call the client
 * looks at what the call must leave alone, at the mode and at all cells, and ends
 * with status 1 where one of them is not as it should be.
 *
 * The one table of `blocks-words` and `blocks-packed` begins as the factory table. It
 * is lent as the draft of an open edit to each set and set block, and as the running
 * table, quiet, to any other request. Behind the reply to a refusal they print
 * `no cell changed`, or `cells changed` where the table is not as it was.
 */
#include <stdbool.h>
#include <stdio.h>
#include <stdlib.h>
#include <string.h>

#include "sagbuwen.h"

#define MOST_PAIRS 1024

/* One byte more than the longest good line has. */
#define LINE_ROOM (3 * MOST_PAIRS)

/* How much stands behind every memory, and must stay. */
#define GUARD 64

/* The longest memories that the client lends. */
#define MOST_WORDS (SAGBUWEN_CELLS + 1)
#define MOST_PACKED (SAGBUWEN_PACKED_OCTETS + 1)
#define MOST_REPLY 2000

/* What memory holds before it is used. */
#define FILL 0xA5

#define COUNT(array) (sizeof(array) / sizeof(array)[0])

enum form { WORDS, PACKED };

/* The first octets of requests. */
enum { GET = 1, SET = 2, GET_BLOCK = 3, SET_BLOCK = 4, OPEN = 5, ABANDON = 9 };

/* The data type of a block. */
#define STANDARD 0

/* A parameter memory in both forms; a call is lent one of them. */
struct forms {
    uint16_t words[MOST_WORDS + GUARD];
    uint8_t octets[MOST_PACKED + GUARD];
};

/* All memory that a call may reach. */
struct memory {
    struct forms running;
    struct forms draft;
    uint8_t request[MOST_PAIRS + GUARD];
    uint8_t reply[MOST_REPLY + GUARD];
};

/* The lengths that are lent. */
struct lengths {
    size_t running;
    size_t draft;
    size_t reply;
};

/* The values of a memory's cells. */
struct cells {
    uint16_t values[SAGBUWEN_CELLS];
};

static struct memory memory;

/* The same before the call. */
static struct memory before;

/* The cells that the memories should have. */
static struct cells expected_running;
static struct cells expected_draft;

static const char *const form_names[] = {"words", "packed"};

/* What a column holds, and so what a row of a block carries for it. */
enum column {
    OCTET,      /* a number of one octet */
    PAIR,       /* a number of two octets, the high one first */
    OPTIONS,    /* a vehicle detector's options, one octet */
    LIST,       /* a list: its length, then as many octets */
    NOT_CARRIED /* a number of one octet that no row carries */
};

/* The bits of a vehicle detector's options that are not stored together. */
enum { BIT_2 = 1 << 2, BIT_3 = 1 << 3 };

/* The cells of a list: its length and sixteen octets. A list is last in its row. */
#define LIST_CELLS 17

static const enum column phase_columns[] = {
    OCTET, OCTET, OCTET, OCTET, OCTET, OCTET, OCTET, OCTET, OCTET, OCTET, OCTET,
    OCTET, OCTET, OCTET, OCTET, OCTET, OCTET, OCTET, OCTET, PAIR,  OCTET, LIST,
};
static const enum column vehicle_detector_columns[] = {
    OPTIONS, OCTET, OCTET, PAIR, OCTET, OCTET, OCTET, OCTET, OCTET, OCTET,
};
static const enum column pedestrian_detector_columns[] = {OCTET, OCTET, OCTET, OCTET};
static const enum column pattern_columns[] = {OCTET, OCTET, NOT_CARRIED, OCTET};
static const enum column split_columns[] = {OCTET, OCTET, OCTET};
static const enum column action_columns[] = {OCTET, OCTET, OCTET};
static const enum column sequence_columns[] = {LIST};

struct family {
    size_t first_cell;
    size_t row_cells;
    unsigned last_first;
    unsigned last_second; /* 0 where a row has one index */
    size_t column_count;
    const enum column *columns;
};

#define COLUMNS(array) COUNT(array), array

/* The families by data ID. */
static const struct family families[] = {
    {0, 38, 16, 0, COLUMNS(phase_columns)},
    {608, 10, 64, 0, COLUMNS(vehicle_detector_columns)},
    {1248, 4, 8, 0, COLUMNS(pedestrian_detector_columns)},
    {1280, 4, 32, 0, COLUMNS(pattern_columns)},
    {1408, 3, 16, 16, COLUMNS(split_columns)},
    {2176, 3, 32, 0, COLUMNS(action_columns)},
    {0, 0, 0, 0, 0, NULL}, /* there is no family 6 */
    {2272, LIST_CELLS, 4, 4, COLUMNS(sequence_columns)},
};

static void fail(const char *what)
{
    fprintf(stderr, "client: %s\n", what);
    exit(EXIT_FAILURE);
}

/* Gives every word the high octet A5 and a low octet by its place, and every other
   octet A5. */
static void fill_memory(void)
{
    memset(&memory, FILL, sizeof memory);
    for (size_t i = 0; i < COUNT(memory.running.words); i++) {
        memory.running.words[i] = (uint16_t)(FILL << 8 | (i & 0xFF));
        memory.draft.words[i] = (uint16_t)(FILL << 8 | (~i & 0xFF));
    }
}

static struct lengths right_lengths(enum form form)
{
    size_t whole = form == WORDS ? SAGBUWEN_CELLS : SAGBUWEN_PACKED_OCTETS;
    struct lengths right = {whole, whole, SAGBUWEN_REPLY_OCTETS};
    return right;
}

static sagbuwen_answer start(enum form form, size_t running)
{
    memcpy(&before, &memory, sizeof memory);
    if (form == WORDS) {
        return sagbuwen_factory_start_words(memory.running.words, running);
    }
    return sagbuwen_factory_start_packed(memory.running.octets, running);
}

static sagbuwen_answer request(enum form form, uint8_t mode, struct lengths lent, size_t octets)
{
    memcpy(&before, &memory, sizeof memory);
    if (form == WORDS) {
        return sagbuwen_request_words(mode, memory.running.words, lent.running, memory.draft.words,
                                      lent.draft, memory.request, octets, memory.reply, lent.reply);
    }
    return sagbuwen_request_packed(mode, memory.running.octets, lent.running, memory.draft.octets,
                                   lent.draft, memory.request, octets, memory.reply, lent.reply);
}

static bool nothing_changed(void)
{
    return memcmp(&memory, &before, sizeof memory) == 0;
}

static bool is_family(size_t id)
{
    return id < COUNT(families) && families[id].column_count > 0;
}

/* Whether the whole word is the cell. */
static bool is_wide(size_t cell)
{
    const struct family *family = families;
    for (size_t id = 0; id < COUNT(families); id++) {
        if (is_family(id) && families[id].first_cell <= cell) {
            family = &families[id];
        }
    }
    size_t in_row = (cell - family->first_cell) % family->row_cells;
    return in_row < family->column_count && family->columns[in_row] == PAIR;
}

/* Lets words that were there before have the cells that are there now. */
static void allow_cells(uint16_t *was, const uint16_t *is)
{
    for (size_t i = 0; i < SAGBUWEN_CELLS; i++) {
        unsigned cell = is_wide(i) ? 0xFFFF : 0x00FF;
        was[i] = (uint16_t)((was[i] & ~cell) | (is[i] & cell));
    }
}

/* Lets a memory as it was before have the cells that it has now. */
static void allow_memory(enum form form, struct forms *was, const struct forms *is)
{
    if (form == WORDS) {
        allow_cells(was->words, is->words);
    } else {
        memcpy(was->octets, is->octets, SAGBUWEN_PACKED_OCTETS);
    }
}

#define SAME(part) (memcmp(memory.part, before.part, sizeof memory.part) == 0)

static bool running_same(void)
{
    return SAME(running.words) && SAME(running.octets);
}

static bool draft_same(void)
{
    return SAME(draft.words) && SAME(draft.octets);
}

/* Ends the client if a call changed more than `before` was let have. */
static void check_kept(void)
{
    if (!running_same()) {
        fail("running memory changed, or more of it than its cells");
    }
    if (!draft_same()) {
        fail("draft memory changed, or more of it than its cells");
    }
    if (!SAME(request)) {
        fail("the request changed");
    }
    if (!SAME(reply)) {
        fail("more of reply memory changed than a reply may");
    }
}

/* Whether the request has the draft take values. */
static bool is_edit(void)
{
    return memory.request[0] == SET || memory.request[0] == SET_BLOCK;
}

/* A request changes at most the first 1,024 octets of reply memory and, where it is
   an accepted open, set or set block, the draft's cells. */
static void check_request_kept(enum form form, sagbuwen_answer answer)
{
    if (answer.number == SAGBUWEN_ACCEPTED && (is_edit() || memory.request[0] == OPEN)) {
        allow_memory(form, &before.draft, &memory.draft);
    }
    memcpy(before.reply, memory.reply, SAGBUWEN_REPLY_OCTETS);
    check_kept();
}

/* Ends the client if the mode after a request is not what the request leads to. */
static void check_mode(uint8_t mode, sagbuwen_answer answer)
{
    if (answer.number == SAGBUWEN_ACCEPTED && memory.request[0] == OPEN) {
        mode = SAGBUWEN_EDITING;
    }
    if (answer.number == SAGBUWEN_ACCEPTED && memory.request[0] == ABANDON) {
        mode = SAGBUWEN_QUIET;
    }
    if (answer.mode != mode) {
        fail("the mode is wrong");
    }
}

/* The cells that a memory has. */
static struct cells read_cells(enum form form, const struct forms *from)
{
    struct cells cells;
    const uint8_t *octets = from->octets;
    for (size_t i = 0; i < SAGBUWEN_CELLS; i++) {
        if (form == WORDS) {
            cells.values[i] = is_wide(i) ? from->words[i] : from->words[i] & 0x00FF;
        } else {
            cells.values[i] = *octets++;
            if (is_wide(i)) {
                cells.values[i] = (uint16_t)(cells.values[i] << 8 | *octets++);
            }
        }
    }
    return cells;
}

static const struct family *family_of(uint8_t id)
{
    if (!is_family(id)) {
        fail("a data ID of no family was accepted");
    }
    return &families[id];
}

/* The first cell of a row; the second index is 0 where a row has one index. */
static size_t row_begins(const struct family *family, unsigned first, unsigned second)
{
    bool first_good = first >= 1 && first <= family->last_first;
    bool second_good = second <= family->last_second && (second == 0) == (family->last_second == 0);
    if (!first_good || !second_good) {
        fail("indices of no row were accepted");
    }
    unsigned rows_before = (second == 0 ? 0 : second - 1) * family->last_first + first - 1;
    return family->first_cell + rows_before * family->row_cells;
}

/* The cell of the number that an address names. */
static size_t cell_of(const uint8_t *address)
{
    const struct family *family = family_of(address[0]);
    size_t column = address[1];
    if (column < 1 || column > family->column_count || family->columns[column - 1] == LIST) {
        fail("an address of no number was accepted");
    }
    return row_begins(family, address[2], address[3]) + column - 1;
}

/* What a vehicle detector's options are stored as: sent with both, they lose bit 3. */
static uint16_t stored_options(uint16_t sent)
{
    bool both = (sent & BIT_2) != 0 && (sent & BIT_3) != 0;
    return both ? (uint16_t)(sent - BIT_3) : sent;
}

/* What an accepted set leads to: its values in order. */
static void expect_set(const uint8_t *set)
{
    size_t count = set[1];
    for (size_t i = 0; i < count; i++) {
        const uint8_t *address = &set[2 + 4 * i];
        const uint8_t *sent = &set[2 + 4 * count + 2 * i];
        uint16_t value = (uint16_t)(sent[0] << 8 | sent[1]);
        size_t cell = cell_of(address);
        bool is_options = families[address[0]].columns[address[1] - 1] == OPTIONS;
        expected_draft.values[cell] = is_options ? stored_options(value) : value;
    }
}

/* What is left to read of an accepted request. */
struct rest {
    const uint8_t *octets;
    size_t count;
};

static uint8_t next_octet(struct rest *rest)
{
    if (rest->count == 0) {
        fail("a block with octets missing was accepted");
    }
    rest->count--;
    return *rest->octets++;
}

/* A first index, and how many rows there are from it on. */
struct span {
    unsigned begin;
    unsigned quantity;
};

static struct span next_span(struct rest *rest)
{
    struct span span;
    span.begin = next_octet(rest);
    span.quantity = next_octet(rest);
    return span;
}

/* A count: how many octets it has, then these, the high one first. */
static unsigned next_count(struct rest *rest)
{
    unsigned count = 0;
    for (unsigned octets = next_octet(rest); octets > 0; octets--) {
        count = count << 8 | next_octet(rest);
    }
    return count;
}

/* What a list leads to: its length, its octets, and zeros in the rest of its cells. */
static void expect_list(uint16_t *cells, struct rest *rest)
{
    memset(cells, 0, LIST_CELLS * sizeof *cells);
    cells[0] = next_octet(rest);
    if (cells[0] >= LIST_CELLS) {
        fail("a list that is too long was accepted");
    }
    for (size_t i = 1; i <= cells[0]; i++) {
        cells[i] = next_octet(rest);
    }
}

/* What the octets for a column lead to, from its first cell on. */
static void expect_column(enum column column, uint16_t *cells, struct rest *rest)
{
    switch (column) {
    case OCTET:
        *cells = next_octet(rest);
        break;
    case PAIR:
        *cells = (uint16_t)(next_octet(rest) << 8);
        *cells |= next_octet(rest);
        break;
    case OPTIONS:
        *cells = stored_options(next_octet(rest));
        break;
    case LIST:
        expect_list(cells, rest);
        break;
    case NOT_CARRIED:
        break;
    }
}

static void expect_row(const struct family *family, uint16_t *cells, struct rest *rest)
{
    for (size_t i = 0; i < family->column_count; i++) {
        expect_column(family->columns[i], &cells[i], rest);
    }
}

/* What an accepted set block leads to: its rows, the first index innermost. */
static void expect_set_block(const uint8_t *block, size_t octets)
{
    struct rest rest = {block, octets};
    if (next_octet(&rest) != STANDARD) {
        fail("a block of an unknown data type was accepted");
    }
    const struct family *family = family_of(next_octet(&rest));
    struct span firsts = next_span(&rest);
    struct span seconds = {0, 1};
    if (family->last_second > 0) {
        seconds = next_span(&rest);
    }
    if (next_count(&rest) != firsts.quantity * seconds.quantity) {
        fail("a block with a wrong count was accepted");
    }
    for (unsigned i = 0; i < seconds.quantity; i++) {
        for (unsigned j = 0; j < firsts.quantity; j++) {
            size_t cell = row_begins(family, firsts.begin + j, seconds.begin + i);
            expect_row(family, &expected_draft.values[cell], &rest);
        }
    }
    if (rest.count > 0) {
        fail("a block with octets over was accepted");
    }
}

/* Has the expected cells follow a request of so many octets. */
static void expect_request(sagbuwen_answer answer, size_t octets)
{
    if (answer.number != SAGBUWEN_ACCEPTED) {
        return;
    }
    switch (memory.request[0]) {
    case SET:
        expect_set(memory.request);
        break;
    case SET_BLOCK:
        expect_set_block(memory.request + 1, octets - 1);
        break;
    case OPEN:
        expected_draft = expected_running;
        break;
    }
}

/* Ends the client if a memory's cells are not those that the requests lead to. */
static void check_cells(enum form form)
{
    struct cells running = read_cells(form, &memory.running);
    struct cells draft = read_cells(form, &memory.draft);
    if (memcmp(&running, &expected_running, sizeof running) != 0) {
        fail("a cell of the running table is wrong");
    }
    if (memcmp(&draft, &expected_draft, sizeof draft) != 0) {
        fail("a cell of the draft is wrong");
    }
}

/* Ends the client if the answer and what stands in reply memory do not agree. */
static void check_reply(sagbuwen_answer answer)
{
    if (answer.length == 0 || answer.length > SAGBUWEN_REPLY_OCTETS) {
        fail("the reply's length is out of range");
    }
    if (memory.reply[0] != answer.number) {
        fail("the reply does not begin with the number returned");
    }
    for (size_t i = answer.length; i < SAGBUWEN_REPLY_OCTETS; i++) {
        if (memory.reply[i] != 0) {
            fail("reply memory is not zero behind the reply");
        }
    }
}

/* The value of a capital hexadecimal digit, or -1. */
static int digit_value(unsigned char digit)
{
    if (digit >= '0' && digit <= '9') {
        return digit - '0';
    }
    if (digit >= 'A' && digit <= 'F') {
        return digit - 'A' + 10;
    }
    return -1;
}

/* Reads the octets that a line spells, and says whether it is a good line. */
static bool octets_of_line(const unsigned char *line, size_t length, uint8_t *octets, size_t *count)
{
    *count = 0;
    if (length == 0) {
        return true;
    }
    /* Pairs and the spaces between them: three bytes a pair, less one. */
    if (length % 3 != 2 || length > LINE_ROOM - 1) {
        return false;
    }
    for (size_t i = 0; i < length; i += 3) {
        int high = digit_value(line[i]);
        int low = digit_value(line[i + 1]);
        if (high < 0 || low < 0 || (i + 2 < length && line[i + 2] != ' ')) {
            return false;
        }
        octets[(*count)++] = (uint8_t)(high * 16 + low);
    }
    return true;
}

/* Reads a line and keeps as much of it as there is room for; false at the end of
   the script. The last line may lack its newline. */
static bool read_line(unsigned char *line, size_t *length)
{
    int byte = getchar();
    if (byte == EOF) {
        return false;
    }
    *length = 0;
    for (; byte != EOF && byte != '\n'; byte = getchar()) {
        if (*length < LINE_ROOM) {
            line[(*length)++] = (unsigned char)byte;
        }
    }
    return true;
}

static void print_octets(const uint8_t *octets, size_t count)
{
    for (size_t i = 0; i < count; i++) {
        printf(i == 0 ? "%02X" : " %02X", (unsigned)octets[i]);
    }
    putchar('\n');
}

/* Ends the client if a request in this mode, of so many octets, left anything as it
   should not be. */
static void check_request(enum form form, uint8_t mode, size_t octets, sagbuwen_answer answer)
{
    check_request_kept(form, answer);
    check_mode(mode, answer);
    expect_request(answer, octets);
    check_cells(form);
}

/* The factory start that every script begins with. */
static void start_script(enum form form)
{
    fill_memory();
    sagbuwen_answer answer = start(form, right_lengths(form).running);
    if (answer.number != SAGBUWEN_ACCEPTED || answer.mode != SAGBUWEN_QUIET || answer.length != 0) {
        fail("the factory start does not answer 0, quiet and no reply");
    }
    allow_memory(form, &before.running, &memory.running);
    check_kept();
    expected_running = read_cells(form, &memory.running);
    expected_draft = read_cells(form, &memory.draft);
}

/* Reads the next request of the script, past all bad lines; false at the end. */
static bool next_request(size_t *octets)
{
    unsigned char line[LINE_ROOM];
    size_t length;
    while (read_line(line, &length)) {
        memset(memory.request, FILL, sizeof memory.request);
        if (octets_of_line(line, length, memory.request, octets)) {
            return true;
        }
        puts("bad line");
    }
    if (ferror(stdin)) {
        fail("the script could not be read");
    }
    return false;
}

/* Hands the request to the unit and prints the reply. */
static sagbuwen_answer print_reply(enum form form, uint8_t mode, size_t octets)
{
    memset(memory.reply, FILL, SAGBUWEN_REPLY_OCTETS);
    sagbuwen_answer answer = request(form, mode, right_lengths(form), octets);
    check_reply(answer);
    print_octets(memory.reply, answer.length);
    return answer;
}

static void run_script(enum form form)
{
    start_script(form);
    uint8_t mode = SAGBUWEN_QUIET;
    size_t octets;
    while (next_request(&octets)) {
        sagbuwen_answer answer = print_reply(form, mode, octets);
        check_request(form, mode, octets, answer);
        mode = answer.mode;
    }
}

/* Has running memory and draft memory change places. */
static void swap_memories(void)
{
    struct forms forms = memory.running;
    struct cells cells = expected_running;
    memory.running = memory.draft;
    expected_running = expected_draft;
    memory.draft = forms;
    expected_draft = cells;
}

/* Runs a script that has one table for all its lines. Between lines the table stands in
   running memory. */
static void run_blocks(enum form form)
{
    start_script(form);
    size_t octets;
    while (next_request(&octets)) {
        bool edit = is_edit();
        uint8_t mode = edit ? SAGBUWEN_EDITING : SAGBUWEN_QUIET;
        if (edit) {
            swap_memories();
        }
        sagbuwen_answer answer = print_reply(form, mode, octets);
        if (answer.number != SAGBUWEN_ACCEPTED) {
            bool same = edit ? draft_same() : running_same();
            puts(same ? "no cell changed" : "cells changed");
        }
        check_request(form, mode, octets, answer);
        if (edit) {
            swap_memories();
        }
    }
}

/* Prints what a call came to, and what it changed. */
static void print_answer(sagbuwen_answer answer)
{
    const char *changed = "nothing changed";
    if (!nothing_changed()) {
        memcpy(before.reply, memory.reply, SAGBUWEN_REPLY_OCTETS);
        changed = nothing_changed() ? "only the reply changed" : "more than the reply changed";
    }
    printf("number %u, mode %u, length %zu, %s\n", (unsigned)answer.number, (unsigned)answer.mode,
           answer.length, changed);
}

/* A start on a running memory of a wrong length. */
static void try_start(enum form form, size_t running)
{
    fill_memory();
    printf("start %s, running %zu: ", form_names[form], running);
    print_answer(start(form, running));
}

/* A request to try. */
struct attempt {
    const char *name;
    size_t count;
    uint8_t octets[10];
};

static const struct attempt get_two = {"get", 10, {GET, 2, 1, 1, 1, 0, 1, 2, 16, 0}};
static const struct attempt set_one = {"set", 8, {SET, 1, 0, 3, 1, 0, 0, 10}};
static const struct attempt get_block = {"get block", 5, {GET_BLOCK, 0, 3, 1, 2}};
static const struct attempt set_block = {"set block", 10, {SET_BLOCK, 0, 3, 1, 1, 1, 1, 80, 0, 1}};
static const struct attempt open_edit = {"open", 1, {OPEN}};
static const struct attempt abandon_edit = {"abandon", 1, {ABANDON}};

/* The request on memories of these lengths, in a mode. */
static void try_request(const struct attempt *tried, enum form form, struct lengths lent, uint8_t mode)
{
    fill_memory();
    (void)start(form, right_lengths(form).running);
    memcpy(memory.request, tried->octets, tried->count);
    printf("%s %s, running %zu, draft %zu, reply %zu: ", tried->name, form_names[form], lent.running,
           lent.draft, lent.reply);
    sagbuwen_answer answer = request(form, mode, lent, tried->count);
    if (answer.length > 0) {
        check_reply(answer);
    }
    print_answer(answer);
}

static void try_refusals(void)
{
    static const size_t wrong_words[] = {0, SAGBUWEN_CELLS - 1, SAGBUWEN_CELLS + 1};
    static const size_t wrong_octets[] = {0, SAGBUWEN_PACKED_OCTETS - 1, SAGBUWEN_PACKED_OCTETS + 1};
    static const size_t replies[] = {0, SAGBUWEN_REPLY_OCTETS - 1, SAGBUWEN_REPLY_OCTETS, MOST_REPLY};

    for (enum form form = WORDS; form <= PACKED; form++) {
        const size_t *wrong = form == WORDS ? wrong_words : wrong_octets;
        const struct lengths right = right_lengths(form);
        for (size_t i = 0; i < 3; i++) {
            try_start(form, wrong[i]);
        }
        for (size_t i = 0; i < 3; i++) {
            struct lengths lent = right;
            lent.running = wrong[i];
            try_request(&get_two, form, lent, SAGBUWEN_EDITING);
            try_request(&open_edit, form, lent, SAGBUWEN_QUIET);
        }
        for (size_t i = 0; i < 3; i++) {
            struct lengths lent = right;
            lent.draft = wrong[i];
            try_request(&get_two, form, lent, SAGBUWEN_CHECKED);
            try_request(&set_one, form, lent, SAGBUWEN_EDITING);
        }
        for (size_t i = 0; i < 4; i++) {
            struct lengths lent = right;
            lent.reply = replies[i];
            try_request(&get_two, form, lent, SAGBUWEN_CHECKED);
            try_request(&abandon_edit, form, lent, SAGBUWEN_CHECKED);
        }
        /* The memories are tested before the room. */
        struct lengths none = {0, 0, 0};
        try_request(&get_two, form, none, 255);
        /* Modes that the operation is not taken in. */
        try_request(&get_two, form, right, 3);
        try_request(&set_one, form, right, SAGBUWEN_CHECKED);
        try_request(&get_block, form, right, 3);
        try_request(&get_block, form, right, SAGBUWEN_CHECKED);
        try_request(&set_block, form, right, SAGBUWEN_QUIET);
        try_request(&set_block, form, right, SAGBUWEN_CHECKED);
        try_request(&open_edit, form, right, SAGBUWEN_CHECKED);
        try_request(&abandon_edit, form, right, 255);
    }
}

int main(int argc, char **argv)
{
    const char *what = argc == 2 ? argv[1] : "";
    if (strcmp(what, "words") == 0) {
        run_script(WORDS);
    } else if (strcmp(what, "packed") == 0) {
        run_script(PACKED);
    } else if (strcmp(what, "blocks-words") == 0) {
        run_blocks(WORDS);
    } else if (strcmp(what, "blocks-packed") == 0) {
        run_blocks(PACKED);
    } else if (strcmp(what, "refusals") == 0) {
        try_refusals();
    } else {
        fprintf(stderr, "usage: client words | packed | blocks-words | blocks-packed | refusals\n");
        return 2;
    }
    if (fflush(stdout) != 0 || ferror(stdout)) {
        fail("standard output could not be written");
    }
    return EXIT_SUCCESS;
}
