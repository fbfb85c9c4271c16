/* Plans a table of four calls, judges the settings, writes them to a file and reads it back; then plans it for gratings with a
   spare port. Prints each answer in decimal. */
#include "bolikwaru.h"

#include <stdio.h>
#include <string.h>

static void print_bytes(const char *name, const uint8_t *bytes, size_t length) {
    printf("%s:", name);
    for (size_t i = 0; i < length; i++) printf(" %u", (unsigned)bytes[i]);
    printf("\n");
}

static void print_verdict(const char *name, bolikwaru_verdict v) {
    printf("%s: number %zu row %zu\n", name, v.number, v.row);
}

static void print_planned(const char *name, bolikwaru_planned p) {
    printf("%s: number %zu row %zu moved %zu\n", name, p.number, p.row, p.moved);
}

int main(void) {
    const bolikwaru_network net = bolikwaru_of_sizes(2, 2, 3);
    const uint8_t calls[] = {0, 0, 0, 0, /**/ 0, 1, 1, 0, /**/ 1, 0, 2, 0, /**/ 1, 1, 1, 1};
    const uint8_t note[] = {'c', 'a', 's', 'e', ' ', '4'};
    uint8_t settings[12] = {0};
    uint8_t file[50];
    const size_t file_length = sizeof note + sizeof calls + sizeof settings + 12;

    print_planned("plan", bolikwaru_plan(net, calls, sizeof calls, settings, sizeof settings));
    print_bytes("settings", settings, sizeof settings);
    print_verdict("accept", bolikwaru_accept(net, calls, sizeof calls, settings, sizeof settings));

    /* The file stands at the front of the buffer; the bytes beyond keep their value. */
    memset(file, 255, sizeof file);
    print_verdict("write", bolikwaru_write_planned(net, note, sizeof note, calls, sizeof calls, settings,
                                                   sizeof settings, file, sizeof file));
    print_bytes("file", file, file_length);
    print_bytes("beyond", file + file_length, sizeof file - file_length);

    const bolikwaru_told told = bolikwaru_read(file, file_length);
    printf("read: number %zu row %zu\n", told.number, told.row);
    printf("told: n %zu m %zu r %zu w %zu kind %zu count %zu\n", told.n, told.m, told.r, told.w, told.kind, told.count);
    printf("told: note at %zu, calls at %zu, settings at %zu\n", told.note_at, told.calls_at, told.settings_at);

    /* Two modules, two centrals, and gratings of two ports; then gratings of three, with a spare one. Settings for one cycle are
       none for the other, and a file of kind 2 has no place for a cycle that is not the larger of r and m. */
    const uint8_t crossed[] = {0, 0, 0, 0, /**/ 1, 0, 1, 0, /**/ 1, 1, 0, 1, /**/ 0, 1, 1, 1};
    const bolikwaru_network tight = bolikwaru_of_sizes(2, 2, 2);
    const bolikwaru_network spare = {2, 2, 2, 3};
    print_planned("no spare port", bolikwaru_plan(tight, crossed, sizeof crossed, settings, sizeof settings));
    print_bytes("settings", settings, sizeof settings);
    print_verdict("these with a spare port", bolikwaru_accept(spare, crossed, sizeof crossed, settings, sizeof settings));
    print_planned("a spare port", bolikwaru_plan(spare, crossed, sizeof crossed, settings, sizeof settings));
    print_bytes("settings", settings, sizeof settings);
    print_verdict("accept", bolikwaru_accept(spare, crossed, sizeof crossed, settings, sizeof settings));
    print_verdict("write", bolikwaru_write_planned(spare, note, sizeof note, crossed, sizeof crossed, settings,
                                                   sizeof settings, file, sizeof file));

    /* With one central, row 1 is a call too many for input module 0. A refusal changes nothing. */
    const bolikwaru_network narrow = bolikwaru_of_sizes(2, 1, 3);
    memset(settings, 255, sizeof settings);
    print_planned("one central", bolikwaru_plan(narrow, calls, sizeof calls, settings, sizeof settings));
    print_bytes("settings", settings, sizeof settings);

    /* No size is cut off on the way in: these are 3 in their lower 32 bits. */
    const bolikwaru_network vast = bolikwaru_of_sizes(2, 2, 4294967299u);
    print_planned("too many modules", bolikwaru_plan(vast, calls, sizeof calls, settings, sizeof settings));
    const bolikwaru_network long_cycle = {2, 2, 3, 4294967299u};
    print_planned("too long a cycle", bolikwaru_plan(long_cycle, calls, sizeof calls, settings, sizeof settings));
    return 0;
}
