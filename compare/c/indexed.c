/* The planner of document 01, with the cycle of request 1 of document 02, in C and with an index: for each module of each side
   and each central the row that stands there. A chain looks its next row up in one entry and reads no others. Beside the index
   stands a word for each module, with a bit for each central that is free there. All of it is on the stack: 8 KiB of index, and
   half a KiB of words. */

#include <stddef.h>
#include <stdint.h>

enum {
    MOST_CHANNELS = 16,
    MOST_CENTRALS = 32,
    MOST_MODULES = 64,
    MOST_WAVELENGTHS = 64,
    MOST_ROWS = 1024,
    MOST_ENDS = MOST_MODULES * MOST_CHANNELS,
    CALL_BYTES = 4,
    SETTING_BYTES = 3
};

/* The places of the modules in a call row, each with its channel behind it, and of the central in a settings row. */
enum { INPUT = 0, OUTPUT = 2, CENTRAL = 1 };

/* A number and a row: 0 and K, or a refusal; and how many calls were moved. */
struct planned {
    size_t number, row, moved;
};

/* One side of the shelf. Where a central is free at a module, its entry says nothing. */
struct side {
    uint32_t free[MOST_MODULES];
    uint16_t row[MOST_MODULES][MOST_CENTRALS];
};

static struct planned refused(size_t number, size_t row) {
    const struct planned answer = {number, row, 0};
    return answer;
}

static struct planned passed(size_t count) {
    const struct planned answer = {0, count, 0};
    return answer;
}

static int sizes_are_within(size_t n, size_t m, size_t r, size_t w) {
    return 1 <= n && n <= MOST_CHANNELS && 1 <= m && m <= MOST_CENTRALS && 1 <= r && r <= MOST_MODULES
        && r <= w && m <= w && w <= MOST_WAVELENGTHS;
}

/* Marks an end, an inlet or an outlet, as module and channel; answers whether it was marked before. */
static unsigned mark(uint8_t *marks, const uint8_t *end) {
    uint8_t *const place = &marks[MOST_CHANNELS * end[0] + end[1]];
    const unsigned before = *place;
    *place = 1;
    return before;
}

/* The first row whose end at one side is that of an earlier row. There is one. */
static size_t first_repeated(const uint8_t *calls, size_t side) {
    uint8_t marks[MOST_ENDS] = {0};
    size_t row = 0;
    while (mark(marks, &calls[CALL_BYTES * row + side]) == 0) {
        row++;
    }
    return row;
}

/* Refusals 5, 6 and 7. A number outside ends the pass, since 5 comes before the others in the whole table; the row of 6 or 7 is
   sought only where there is one. */
static struct planned check_calls(size_t n, size_t r, const uint8_t *calls, size_t count) {
    uint8_t inlets[MOST_ENDS] = {0};
    uint8_t outlets[MOST_ENDS] = {0};
    unsigned repeated_inlets = 0;
    unsigned repeated_outlets = 0;
    for (size_t row = 0; row < count; row++) {
        const uint8_t *const call = &calls[CALL_BYTES * row];
        if (call[INPUT] >= r || call[INPUT + 1] >= n || call[OUTPUT] >= r || call[OUTPUT + 1] >= n) {
            return refused(5, row);
        }
        repeated_inlets |= mark(inlets, &call[INPUT]);
        repeated_outlets |= mark(outlets, &call[OUTPUT]);
    }
    if (repeated_inlets != 0) {
        return refused(6, first_repeated(calls, INPUT));
    }
    if (repeated_outlets != 0) {
        return refused(7, first_repeated(calls, OUTPUT));
    }
    return passed(count);
}

/* Refusal 8. The calls have passed 5, 6 and 7, so a module has at most n of them. */
static struct planned check_modules(size_t n, size_t m, const uint8_t *calls, size_t count) {
    uint8_t at_inputs[MOST_MODULES] = {0};
    uint8_t at_outputs[MOST_MODULES] = {0};
    if (n <= m) {
        return passed(count);
    }
    for (size_t row = 0; row < count; row++) {
        const uint8_t *const call = &calls[CALL_BYTES * row];
        const uint8_t at_input = ++at_inputs[call[INPUT]];
        const uint8_t at_output = ++at_outputs[call[OUTPUT]];
        if (at_input > m || at_output > m) {
            return refused(8, row);
        }
    }
    return passed(count);
}

/* The remainder of the sum of two numbers below the cycle. */
static uint8_t sum(size_t left, size_t right, size_t w) {
    const size_t whole = left + right;
    return (uint8_t)(whole >= w ? whole - w : whole);
}

/* Writes the settings row that a call needs on a central. */
static void write_setting(size_t w, const uint8_t *call, unsigned central, uint8_t *setting) {
    setting[0] = sum(call[INPUT], central, w);
    setting[CENTRAL] = (uint8_t)central;
    setting[2] = sum(central, call[OUTPUT], w);
}

/* No row. */
enum { NONE = MOST_ROWS };

/* Enters a row that goes from one central to another at one of its modules. The row that stood there takes its place, and is
   answered; where there was none, the other central was free, and the one becomes free. */
static size_t enter(struct side *side, size_t module, unsigned from, unsigned to, size_t row) {
    const uint32_t both = UINT32_C(1) << from | UINT32_C(1) << to;
    size_t other = NONE;
    if ((side->free[module] >> to & 1) != 0) {
        side->free[module] ^= both;
    } else {
        other = side->row[module][to];
        side->row[module][from] = (uint16_t)other;
    }
    side->row[module][to] = (uint16_t)row;
    return other;
}

/* Changes every call of the chain that starts at an output module between a and b, and answers how many these are. */
static size_t exchange_chain(struct side *restrict inputs, struct side *restrict outputs, const uint8_t *restrict calls,
                             uint8_t *restrict settings, size_t start, unsigned a, unsigned b, size_t w) {
    size_t moved = 0;
    size_t row = outputs->row[start][a];
    enter(outputs, start, a, b, row);
    for (;;) {
        write_setting(w, &calls[CALL_BYTES * row], b, &settings[SETTING_BYTES * row]);
        moved++;
        row = enter(inputs, calls[CALL_BYTES * row + INPUT], a, b, row);
        if (row == NONE) {
            return moved;
        }
        write_setting(w, &calls[CALL_BYTES * row], a, &settings[SETTING_BYTES * row]);
        moved++;
        row = enter(outputs, calls[CALL_BYTES * row + OUTPUT], b, a, row);
        if (row == NONE) {
            return moved;
        }
    }
}

/* The lowest of these centrals, of which there is one. */
static unsigned lowest(uint32_t centrals) {
    return (unsigned)__builtin_ctz(centrals);
}

/* Enters a new row on a central at one of its modules. */
static void place(struct side *side, size_t module, unsigned central, size_t row) {
    side->free[module] &= ~(UINT32_C(1) << central);
    side->row[module][central] = (uint16_t)row;
}

/* Places the calls, which have passed all refusals, in row order, writes their settings, and answers how many were moved. */
static size_t place_all(size_t m, size_t w, const uint8_t *restrict calls, size_t count, uint8_t *restrict settings) {
    struct side inputs, outputs;
    size_t moved = 0;
    for (size_t module = 0; module < MOST_MODULES; module++) {
        inputs.free[module] = UINT32_MAX >> (MOST_CENTRALS - m);
        outputs.free[module] = UINT32_MAX >> (MOST_CENTRALS - m);
    }
    for (size_t row = 0; row < count; row++) {
        const size_t input = calls[CALL_BYTES * row + INPUT];
        const size_t output = calls[CALL_BYTES * row + OUTPUT];
        const uint32_t common = inputs.free[input] & outputs.free[output];
        unsigned central;
        if (common != 0) {
            central = lowest(common);
        } else {
            /* A module that awaits a call has fewer than m, so neither word is 0. */
            central = lowest(inputs.free[input]);
            moved += exchange_chain(&inputs, &outputs, calls, settings, output, central, lowest(outputs.free[output]), w);
        }
        write_setting(w, &calls[CALL_BYTES * row], central, &settings[SETTING_BYTES * row]);
        place(&inputs, input, central, row);
        place(&outputs, output, central, row);
    }
    return moved;
}

/* The refusals in their order; without one, the settings. */
static struct planned plan(size_t n, size_t m, size_t r, size_t w, const uint8_t *restrict calls, size_t calls_length,
                           uint8_t *restrict settings, size_t settings_length) {
    const size_t count = calls_length / CALL_BYTES;
    struct planned answer;
    if (!sizes_are_within(n, m, r, w)) {
        return refused(1, 0);
    }
    if (calls_length % CALL_BYTES != 0) {
        return refused(2, 0);
    }
    if (count > MOST_ROWS) {
        return refused(3, 0);
    }
    if (settings_length < SETTING_BYTES * count) {
        return refused(4, 0);
    }
    answer = check_calls(n, r, calls, count);
    if (answer.number != 0) {
        return answer;
    }
    answer = check_modules(n, m, calls, count);
    if (answer.number != 0) {
        return answer;
    }
    answer.moved = place_all(m, w, calls, count, settings);
    return answer;
}

/* Plans a call table, and writes its settings to the first 3 K bytes of `settings`; a refusal writes nothing there. The buffers
   may have any length and the calls any content; where the length is 0 any pointer will do. No two of them overlap. */
void indexed_plan(size_t n, size_t m, size_t r, size_t w, const uint8_t *restrict calls, size_t calls_length,
                  uint8_t *restrict settings, size_t settings_length, struct planned *restrict answer) {
    *answer = plan(n, m, r, w, calls, calls_length, settings, settings_length);
}
