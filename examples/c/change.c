/* Changes a running shelf one call at a time: plans three calls, adds a fourth, which moves two of them, drops one, and adds one
   again between the same modules. What an entry wrote is given to the next. Prints each answer in decimal. */
#include "bolikwaru.h"

#include <stdio.h>
#include <string.h>

/* The shelf as it runs: its calls and their settings, count rows of each. */
typedef struct {
    size_t count;
    uint8_t calls[4 * 8], settings[3 * 8];
} shelf;

static void print_shelf(const shelf *now) {
    for (size_t row = 0; row < now->count; row++) {
        const uint8_t *call = now->calls + 4 * row, *set = now->settings + 3 * row;
        printf("  row %zu: from %u %u to %u %u, by %u %u %u\n", row, (unsigned)call[0], (unsigned)call[1], (unsigned)call[2],
               (unsigned)call[3], (unsigned)set[0], (unsigned)set[1], (unsigned)set[2]);
    }
}

/* Adds a call, and tells the rows that had to move. A refusal leaves the shelf as it is. */
static void add(bolikwaru_network net, shelf *now, const uint8_t call[4]) {
    shelf next;
    uint8_t moved[2 * 8];
    const bolikwaru_planned added =
        bolikwaru_add(net, now->calls, 4 * now->count, now->settings, 3 * now->count, call, 4, next.calls,
                      sizeof next.calls, next.settings, sizeof next.settings, moved, sizeof moved);
    printf("add %u %u %u %u: number %zu row %zu moved %zu\n", (unsigned)call[0], (unsigned)call[1], (unsigned)call[2],
           (unsigned)call[3], added.number, added.row, added.moved);
    if (added.number != 0) return;
    next.count = added.row;
    for (size_t i = 0; i < added.moved; i++) {
        const size_t row = 256u * moved[2 * i] + moved[2 * i + 1];
        printf("  row %zu moved from central %u to %u\n", row, (unsigned)now->settings[3 * row + 1],
               (unsigned)next.settings[3 * row + 1]);
    }
    *now = next;
    print_shelf(now);
}

/* Drops a row: later rows close up. */
static void drop(bolikwaru_network net, shelf *now, size_t row) {
    shelf next;
    const bolikwaru_verdict dropped =
        bolikwaru_drop(net, now->calls, 4 * now->count, now->settings, 3 * now->count, row, next.calls,
                       sizeof next.calls, next.settings, sizeof next.settings);
    printf("drop row %zu: number %zu row %zu\n", row, dropped.number, dropped.row);
    if (dropped.number != 0) return;
    next.count = dropped.row;
    *now = next;
    print_shelf(now);
}

int main(void) {
    const bolikwaru_network net = bolikwaru_of_sizes(2, 2, 3);
    const uint8_t first[] = {0, 0, 0, 0, /**/ 0, 1, 1, 0, /**/ 1, 0, 2, 0};
    const uint8_t fourth[] = {1, 1, 1, 1}, same_inlet[] = {0, 1, 2, 1}, again[] = {0, 0, 0, 1};
    shelf now = {0};

    memcpy(now.calls, first, sizeof first);
    const bolikwaru_planned planned = bolikwaru_plan(net, first, sizeof first, now.settings, sizeof now.settings);
    now.count = planned.row;
    printf("plan: number %zu row %zu moved %zu\n", planned.number, planned.row, planned.moved);
    print_shelf(&now);

    add(net, &now, fourth);
    add(net, &now, same_inlet);
    drop(net, &now, 0);
    add(net, &now, again);
    drop(net, &now, 4);
    return 0;
}
