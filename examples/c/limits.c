/* Checks the limits and kinds of the header, which is kept by hand, against what the library answers. Prints a line for each:
   what was tried, and what came back. Exits with 1 if one is off. */
#include "bolikwaru.h"

#include <stdio.h>

/* A network with every size at its limit, a call for each of its inlets and one more, their settings, a note that is one
   byte too long, and the rooms that the header says are enough. */
static const bolikwaru_network largest = {BOLIKWARU_MOST_CHANNELS, BOLIKWARU_MOST_CENTRALS, BOLIKWARU_MOST_MODULES,
                                          BOLIKWARU_MOST_WAVELENGTHS};
static uint8_t calls[4 * (BOLIKWARU_MOST_CALLS + 1)];
static uint8_t settings[3 * (BOLIKWARU_MOST_CALLS + 1)];
static uint8_t note[BOLIKWARU_MOST_NOTE + 1];
static uint8_t table_room[BOLIKWARU_LONGEST_TABLE];
static uint8_t settings_room[BOLIKWARU_MOST_SETTINGS];
static uint8_t file[BOLIKWARU_LONGEST_FILE];
static uint8_t moved_room[BOLIKWARU_MOST_MOVED_ROWS];

/* Becomes 1 when an answer is not what the header says. */
static int off = 0;

static void fill_calls(void) {
    for (size_t row = 0; row < BOLIKWARU_MOST_CALLS; row++) {
        uint8_t *call = calls + 4 * row;
        call[0] = call[2] = (uint8_t)(row / BOLIKWARU_MOST_CHANNELS);
        call[1] = call[3] = (uint8_t)(row % BOLIKWARU_MOST_CHANNELS);
    }
}

/* The numbers that the library gives when one thing varies and all else is within its limits. */

static size_t number_with_n(size_t n) {
    return bolikwaru_plan(bolikwaru_of_sizes(n, 1, 1), NULL, 0, NULL, 0).number;
}

static size_t number_with_m(size_t m) {
    return bolikwaru_plan(bolikwaru_of_sizes(1, m, 1), NULL, 0, NULL, 0).number;
}

static size_t number_with_r(size_t r) {
    return bolikwaru_plan(bolikwaru_of_sizes(1, 1, r), NULL, 0, NULL, 0).number;
}

static size_t number_with_w(size_t w) {
    const bolikwaru_network net = {1, 1, 1, w};
    return bolikwaru_plan(net, NULL, 0, NULL, 0).number;
}

static size_t number_with_calls(size_t count) {
    return bolikwaru_plan(largest, calls, 4 * count, settings, sizeof settings).number;
}

static size_t number_with_note(size_t length) {
    return bolikwaru_write_calls(largest, note, length, NULL, 0, NULL, 0, file, sizeof file).number;
}

static size_t number_with_settings_room(size_t room) {
    return bolikwaru_plan(largest, calls, 4 * BOLIKWARU_MOST_CALLS, settings_room, room).number;
}

/* The most calls with their settings, the longest note, and the longer trailer. */
static size_t number_with_file_room(size_t room) {
    bolikwaru_plan(largest, calls, 4 * BOLIKWARU_MOST_CALLS, settings, sizeof settings);
    return bolikwaru_write_planned_with_cycle(largest, note, BOLIKWARU_MOST_NOTE, calls, 4 * BOLIKWARU_MOST_CALLS,
                                              settings, 3 * BOLIKWARU_MOST_CALLS, file, room).number;
}

/* The last call of the most is added. */
static size_t number_with_added(size_t table, size_t moved) {
    const size_t before = BOLIKWARU_MOST_CALLS - 1;
    bolikwaru_plan(largest, calls, 4 * before, settings, sizeof settings);
    return bolikwaru_add(largest, calls, 4 * before, settings, 3 * before, calls + 4 * before, 4, table_room, table,
                         settings_room, sizeof settings_room, moved_room, moved).number;
}

static size_t number_with_table_room(size_t room) {
    return number_with_added(room, sizeof moved_room);
}

static size_t number_with_moved_room(size_t room) {
    return number_with_added(sizeof table_room, room);
}

/* The kinds that are told of a file with one call, by the writer. */

static size_t kind_of_calls_only(void) {
    bolikwaru_write_calls(largest, NULL, 0, calls, 4, NULL, 0, file, sizeof file);
    return bolikwaru_read(file, 4 + 12).kind;
}

static size_t kind_of_planned(void) {
    bolikwaru_plan(largest, calls, 4, settings, sizeof settings);
    bolikwaru_write_planned(largest, NULL, 0, calls, 4, settings, 3, file, sizeof file);
    return bolikwaru_read(file, 4 + 3 + 12).kind;
}

static size_t kind_of_calls_with_cycle(void) {
    bolikwaru_write_calls_with_cycle(largest, NULL, 0, calls, 4, NULL, 0, file, sizeof file);
    return bolikwaru_read(file, 4 + 14).kind;
}

static size_t kind_of_planned_with_cycle(void) {
    bolikwaru_plan(largest, calls, 4, settings, sizeof settings);
    bolikwaru_write_planned_with_cycle(largest, NULL, 0, calls, 4, settings, 3, file, sizeof file);
    return bolikwaru_read(file, 4 + 3 + 14).kind;
}

/* Prints what came back, and what is owed if that is something else. */
static void show(size_t back, size_t owed) {
    printf("%zu", back);
    if (back != owed) {
        printf(" (not %zu)", owed);
        off = 1;
    }
}

static void try_one(const char *what, size_t given, size_t (*number_with)(size_t), size_t owed) {
    printf("%s %zu gives ", what, given);
    show(number_with(given), owed);
}

/* A limit is taken, and what is just beyond it is refused. */
static void try_limit(const char *name, const char *what, size_t limit, size_t beyond, size_t (*number_with)(size_t),
                      size_t refusal) {
    printf("%s: ", name);
    try_one(what, limit, number_with, 0);
    printf(", ");
    try_one(what, beyond, number_with, refusal);
}

static void check_limit(const char *name, const char *what, size_t limit, size_t beyond, size_t (*number_with)(size_t),
                        size_t refusal) {
    try_limit(name, what, limit, beyond, number_with, refusal);
    printf("\n");
}

/* Of a size 0 is refused as well. */
static void check_size(const char *name, const char *what, size_t limit, size_t (*number_with)(size_t)) {
    try_limit(name, what, limit, limit + 1, number_with, 1);
    printf(", ");
    try_one(what, 0, number_with, 1);
    printf("\n");
}

static void check_kind(const char *name, size_t told, size_t owed) {
    printf("%s: read tells kind ", name);
    show(told, owed);
    printf("\n");
}

int main(void) {
    fill_calls();
    check_size("MOST_CHANNELS", "n", BOLIKWARU_MOST_CHANNELS, number_with_n);
    check_size("MOST_CENTRALS", "m", BOLIKWARU_MOST_CENTRALS, number_with_m);
    check_size("MOST_MODULES", "r", BOLIKWARU_MOST_MODULES, number_with_r);
    check_size("MOST_WAVELENGTHS", "w", BOLIKWARU_MOST_WAVELENGTHS, number_with_w);
    check_limit("MOST_CALLS", "K", BOLIKWARU_MOST_CALLS, BOLIKWARU_MOST_CALLS + 1, number_with_calls, 3);
    check_limit("MOST_NOTE", "a note of", BOLIKWARU_MOST_NOTE, BOLIKWARU_MOST_NOTE + 1, number_with_note, 16);
    check_limit("MOST_SETTINGS", "room of", BOLIKWARU_MOST_SETTINGS, BOLIKWARU_MOST_SETTINGS - 1,
                number_with_settings_room, 4);
    check_limit("LONGEST_FILE", "room of", BOLIKWARU_LONGEST_FILE, BOLIKWARU_LONGEST_FILE - 1, number_with_file_room, 4);
    check_limit("LONGEST_TABLE", "room of", BOLIKWARU_LONGEST_TABLE, BOLIKWARU_LONGEST_TABLE - 1, number_with_table_room, 4);
    check_limit("MOST_MOVED_ROWS", "room of", BOLIKWARU_MOST_MOVED_ROWS, BOLIKWARU_MOST_MOVED_ROWS - 1,
                number_with_moved_room, 4);
    check_kind("CALLS_ONLY", kind_of_calls_only(), BOLIKWARU_CALLS_ONLY);
    check_kind("PLANNED", kind_of_planned(), BOLIKWARU_PLANNED);
    check_kind("CALLS_WITH_CYCLE", kind_of_calls_with_cycle(), BOLIKWARU_CALLS_WITH_CYCLE);
    check_kind("PLANNED_WITH_CYCLE", kind_of_planned_with_cycle(), BOLIKWARU_PLANNED_WITH_CYCLE);
    return off;
}
