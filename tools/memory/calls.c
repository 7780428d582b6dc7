// Calls the exported functions on the boards, runs and what-ifs of the test cases, each time with another request for
// memory that fails, and holds what they answer to the expected answers.
//   calls BOARDS BOARDS_EXPECTED RUNS RUNS_EXPECTED
// The files are mapped so that a write to them stops the program.
#include "failing.h"
#include <fcntl.h>
#include <stdint.h>
#include <stdio.h>
#include <stdlib.h>
#include <string.h>
#include <sys/mman.h>
#include <sys/stat.h>

uint8_t fuldrik_board_order(const uint8_t *file, size_t file_size, uint8_t *places, size_t room);
uint8_t fuldrik_refusal_number(const uint8_t *file, size_t file_size);
uint32_t fuldrik_refusal_place(const uint8_t *file, size_t file_size);
uint8_t fuldrik_run(const uint8_t *file, size_t file_size, const uint8_t *sheet, size_t sheet_size, uint16_t *values,
                    size_t room);
uint8_t fuldrik_what_if(const uint8_t *file, size_t file_size, uint8_t *sheet, size_t sheet_size, uint8_t device,
                        uint8_t level, uint8_t byte, uint16_t *values, size_t room);

enum { NUMBERS = 5, ROOM = 7, NO_ROOM = 254, NO_MEMORY = 255, MOST_DEVICES = 64, UNWRITTEN = 0xBEEF };

struct bytes {
    const uint8_t *at;
    size_t size;
};

// A run, or a what-if.
struct ask {
    char letter;
    struct bytes file;
    struct bytes sheet;
    const uint8_t *cell;
};

struct told {
    uint8_t number;
    uint16_t values[ROOM];
    bool sheet_is_same;
    struct failing_counts counts;
};

// What was counted, for the last line.
static long differences, failed_calls, went_on, calls_without, most_requests, asks, boards;

static void differ(long number, long first, bool onward, const char *what)
{
    if (differences < 10)
        printf("different: case %ld, request %ld%s: %s\n", number, first, onward ? " and all after it" : "", what);
    differences++;
}

static struct bytes mapped(const char *path)
{
    struct stat found;
    int file = open(path, O_RDONLY);
    if (file < 0 || fstat(file, &found) != 0) {
        perror(path);
        exit(2);
    }
    const uint8_t *at = mmap(NULL, (size_t)found.st_size, PROT_READ, MAP_PRIVATE, file, 0);
    return (struct bytes){at, (size_t)found.st_size};
}

static struct bytes take(struct bytes *rest, size_t size)
{
    if (rest->size < size) {
        puts("a case is cut short");
        exit(2);
    }
    struct bytes front = {rest->at, size};
    rest->at += size;
    rest->size -= size;
    return front;
}

static struct bytes take_sized(struct bytes *rest)
{
    const uint8_t *size = take(rest, 2).at;
    return take(rest, size[0] + 256u * size[1]);
}

static struct ask take_ask(struct bytes *rest)
{
    struct ask ask = {.letter = (char)take(rest, 1).at[0]};
    ask.file = take_sized(rest);
    ask.sheet = take_sized(rest);
    ask.cell = take(rest, ask.letter == 'r' ? 0 : 3).at;
    return ask;
}

// The next line of a text, without its end; at the end of the text an empty one.
static const char *next_line(struct bytes *text)
{
    static char line[256];
    size_t size = 0;
    while (size < text->size && text->at[size] != '\n')
        size++;
    memcpy(line, text->at, size < sizeof line ? size : sizeof line - 1);
    line[size < sizeof line ? size : sizeof line - 1] = 0;
    take(text, size < text->size ? size + 1 : size);
    return line;
}

// The lines of a case, of which the first is `# NUMBER`.
static struct bytes take_lines(struct bytes *text)
{
    struct bytes lines = *text;
    next_line(text);
    const uint8_t *from = text->at;
    while (text->size > 0 && text->at[0] != '#')
        next_line(text);
    lines.at = from;
    lines.size = (size_t)(text->at - from);
    return lines;
}

// One call, of which a request fails. A what-if is given a copy of the sheet.
static struct told call(struct ask ask, size_t room, long first, bool onward)
{
    static uint8_t sheet[UINT16_MAX];
    struct told told;
    for (int i = 0; i < ROOM; i++)
        told.values[i] = UNWRITTEN;
    memcpy(sheet, ask.sheet.at, ask.sheet.size);
    failing_from(first, onward);
    if (ask.letter == 'w')
        told.number = fuldrik_what_if(ask.file.at, ask.file.size, sheet, ask.sheet.size, ask.cell[0], ask.cell[1],
                                      ask.cell[2], told.values, room);
    else
        told.number = fuldrik_run(ask.file.at, ask.file.size, ask.sheet.at, ask.sheet.size, told.values, room);
    told.counts = failing_end();
    told.sheet_is_same = memcmp(sheet, ask.sheet.at, ask.sheet.size) == 0;
    return told;
}

static bool is_unwritten(struct told told, int from)
{
    for (int i = from; i < ROOM; i++)
        if (told.values[i] != UNWRITTEN)
            return false;
    return true;
}

static bool is_same(struct told told, struct told right)
{
    return told.number == right.number && memcmp(told.values, right.values, sizeof told.values) == 0;
}

// Whether an answer is the expected one: number of a refusal, all five numbers of a what-if, errno and taken of a run.
static bool is_expected(struct told told, char letter, struct bytes lines)
{
    char line[256] = "";
    unsigned layer, number, v[NUMBERS] = {0};
    do
        strcpy(line, next_line(&lines));
    while (letter == 'r' && lines.size > 0);
    if (sscanf(line, "! %u %u", &layer, &number) == 2)
        return told.number == number && is_unwritten(told, 0);
    const uint16_t *values = told.values;
    if (letter == 'r')
        return told.number == 0 && sscanf(line, "= %*s %u %*s %*s %u", &v[1], &v[4]) == 2 && values[1] == v[1]
               && values[4] == v[4] && is_unwritten(told, NUMBERS);
    return told.number == 0 && sscanf(line, "%u %u %u %u %u", &v[0], &v[1], &v[2], &v[3], &v[4]) == NUMBERS
           && values[0] == v[0] && values[1] == v[1] && values[2] == v[2] && values[3] == v[3] && values[4] == v[4]
           && is_unwritten(told, NUMBERS);
}

// A call with a request that fails: it wants memory and has written nothing, or, if others may succeed, it has gone on
// with a smaller one. Nothing is kept, and the next call answers as ever.
static void try_failing(struct ask ask, long number, struct told right, long first, bool onward)
{
    struct told told = call(ask, ROOM, first, onward);
    struct failing_counts counts = told.counts;
    bool goes_on = !onward && told.number == 0 && counts.asked > first;
    failed_calls++;
    went_on += goes_on;
    if (!goes_on && (told.number != NO_MEMORY || !is_unwritten(told, 0)))
        differ(number, first, onward, "the answer does not say that memory is wanting, or something is written");
    if (goes_on && !is_same(told, right))
        differ(number, first, onward, "another answer");
    if (counts.failed < 1 || (onward && counts.asked - counts.failed != first - 1))
        differ(number, first, onward, "other requests");
    if (!told.sheet_is_same)
        differ(number, first, onward, "the sheet is changed");
    if (counts.live != right.counts.live)
        differ(number, first, onward, "memory is kept");
    struct told again = call(ask, ROOM, 0, false);
    if (!is_same(again, right) || again.counts.asked != right.counts.asked || again.counts.live != right.counts.live)
        differ(number, first, onward, "the next call answers otherwise");
}

// A call that must ask for nothing, with no memory at all.
static void try_without(struct ask ask, long number, size_t room, uint8_t expected)
{
    struct told told = call(ask, room, 1, true);
    calls_without++;
    if (told.number != expected || !is_unwritten(told, 0) || told.counts.asked != 0 || !told.sheet_is_same)
        differ(number, 1, true, "a call that needs no memory asks for some, or answers otherwise without");
}

static void try_ask(struct ask ask, long number, struct bytes lines, long live)
{
    struct told right = call(ask, ROOM, 0, false);
    asks++;
    if (!is_expected(right, ask.letter, lines))
        differ(number, 0, false, "not the expected answer");
    if (right.counts.live != live || !right.sheet_is_same)
        differ(number, 0, false, "memory is kept or the sheet is changed");
    for (size_t room = 0; room < NUMBERS; room++)
        try_without(ask, number, room, NO_ROOM);
    if (right.number != 0) {
        try_without(ask, number, ROOM, right.number);
        return;
    }
    long requests = right.counts.asked;
    most_requests = requests > most_requests ? requests : most_requests;
    for (long first = 1; first <= requests; first++) {
        try_failing(ask, number, right, first, false);
        try_failing(ask, number, right, first, true);
    }
    struct told past = call(ask, ROOM, requests + 1, true);
    if (!is_same(past, right) || past.counts.failed != 0)
        differ(number, requests + 1, true, "another answer, though no request fails");
}

// The three calls on a board file alone ask for nothing.
static void try_board(struct bytes file, long number, struct bytes lines)
{
    uint8_t places[MOST_DEVICES], again[MOST_DEVICES];
    unsigned layer, refused, place;
    if (sscanf(next_line(&lines), "! %u %u %u", &layer, &refused, &place) != 3)
        refused = place = 0;
    memset(places, 0xAA, sizeof places);
    memset(again, 0xAA, sizeof again);
    uint8_t count = fuldrik_board_order(file.at, file.size, places, sizeof places);
    failing_from(1, true);
    bool is_right = fuldrik_board_order(file.at, file.size, again, sizeof again) == count
                    && fuldrik_refusal_number(file.at, file.size) == refused
                    && fuldrik_refusal_place(file.at, file.size) == place;
    struct failing_counts counts = failing_end();
    boards++;
    calls_without += 3;
    if (!is_right || counts.asked != 0 || (count == 0) != (refused != 0) || memcmp(places, again, sizeof places) != 0)
        differ(number, 1, true, "a board file is answered otherwise without memory, or asks for some");
}

int main(int count, char **paths)
{
    if (count != 5)
        return 2;
    struct bytes board_files = mapped(paths[1]), board_lines = mapped(paths[2]);
    struct bytes runs = mapped(paths[3]), run_lines = mapped(paths[4]);
    for (long number = 0; board_files.size > 0; number++) {
        struct bytes lines = take_lines(&board_lines);
        try_board(take_sized(&board_files), number, lines);
    }
    long live = failing_end().live;
    for (long number = 0; runs.size > 0; number++) {
        struct bytes lines = take_lines(&run_lines);
        struct ask ask = take_ask(&runs);
        if (ask.letter != 'l')
            try_ask(ask, number, lines, live);
    }
    printf("exported calls: %ld runs and what-ifs and %ld boards, at most %ld requests in one; %ld calls with a "
           "request that fails, %ld of which went on with a smaller one; %ld calls without memory; %ld different\n",
           asks, boards, most_requests, failed_calls, went_on, calls_without, differences);
    return differences > 0;
}
