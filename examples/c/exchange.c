/* Exchanges plan files between two sites: a plan for gratings with a spare port is written with its cycle and read; then an old file
   is converted to a new one, and back. Prints each answer in decimal. */
#include "bolikwaru.h"

#include <stdio.h>
#include <string.h>

static void print_bytes(const char *name, const uint8_t *bytes, size_t length) {
    printf("%s:", name);
    for (size_t i = 0; i < length; i++) printf(" %u", (unsigned)bytes[i]);
    printf("\n");
}

static void print_verdict(const char *name, bolikwaru_verdict v) {
    printf("%s: number %zu row %zu\n", name, v.number, v.row);
}

static void print_told(bolikwaru_told told) {
    printf("read: number %zu row %zu\n", told.number, told.row);
    printf("told: n %zu m %zu r %zu w %zu kind %zu count %zu\n", told.n, told.m, told.r, told.w, told.kind, told.count);
    printf("told: note at %zu, calls at %zu, settings at %zu\n", told.note_at, told.calls_at, told.settings_at);
}

int main(void) {
    const uint8_t calls[] = {0, 0, 0, 0, /**/ 1, 0, 1, 0, /**/ 1, 1, 0, 1, /**/ 0, 1, 1, 1};
    const uint8_t note[] = {'t', 'o', ' ', 'B'};
    uint8_t settings[12];
    uint8_t file[64], other[64], again[64];
    const size_t old_length = sizeof note + sizeof calls + sizeof settings + 12;
    const size_t new_length = old_length + 2;

    /* Two modules, two centrals, and gratings of three ports: an old file has no place for the cycle, and a new one has. */
    const bolikwaru_network spare = {2, 2, 2, 3};
    bolikwaru_plan(spare, calls, sizeof calls, settings, sizeof settings);
    print_verdict("as kind 2", bolikwaru_write_planned(spare, note, sizeof note, calls, sizeof calls, settings, sizeof settings,
                                                       file, sizeof file));
    print_verdict("as kind 4", bolikwaru_write_planned_with_cycle(spare, note, sizeof note, calls, sizeof calls, settings,
                                                                  sizeof settings, file, sizeof file));
    print_bytes("trailer", file + new_length - 14, 14);
    print_told(bolikwaru_read(file, new_length));
    print_verdict("to old", bolikwaru_convert_to_old(file, new_length, other, sizeof other));

    /* The network of the file is told whole, so that its settings are judged as they were. */
    const bolikwaru_told told = bolikwaru_read(file, new_length);
    const bolikwaru_network back = {told.n, told.m, told.r, told.w};
    print_verdict("accept", bolikwaru_accept(back, file + told.calls_at, 4 * told.count, file + told.settings_at, 3 * told.count));

    /* An old file, whose cycle is the larger of r and m, goes there and comes back, byte for byte. */
    const bolikwaru_network tight = bolikwaru_of_sizes(2, 2, 2);
    bolikwaru_plan(tight, calls, sizeof calls, settings, sizeof settings);
    bolikwaru_write_planned(tight, note, sizeof note, calls, sizeof calls, settings, sizeof settings, file, sizeof file);
    print_bytes("old trailer", file + old_length - 12, 12);
    print_verdict("to new", bolikwaru_convert_to_new(file, old_length, other, sizeof other));
    print_bytes("new trailer", other + new_length - 14, 14);
    print_told(bolikwaru_read(other, new_length));
    print_verdict("to old", bolikwaru_convert_to_old(other, new_length, again, sizeof again));
    printf("there and back: %s\n", memcmp(file, again, old_length) == 0 ? "the first bytes" : "other bytes");

    /* Each conversion takes its own kinds. */
    print_verdict("new to new", bolikwaru_convert_to_new(other, new_length, again, sizeof again));
    print_verdict("no room", bolikwaru_convert_to_new(file, old_length, again, old_length));
    return 0;
}
