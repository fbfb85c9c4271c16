/* Bolikwaru for C: plans settings for a wavelength cross-connect shelf, judges settings, adds and drops single calls, reads, writes
   and converts plan files.
   Link crates/exported/out/libexported.a (x86-64 Linux). Every answer is proved for all numbers and all bytes; the promises
   stand in crates/exported/src/lib.rt, and this header is kept by hand beside them.

   A buffer is handed over as a pointer and a length in bytes; where the length is 0 any pointer will do, also null. A buffer
   that is written must overlap no other. Nothing else is asked of the input. Nothing is kept between calls or allocated.
   Stack, as measured (docs/BENCHMARKS.md), return address included: no call reaches 4,096 bytes below its caller. As today's kit
   compiles it the planner takes 1,200 bytes, an add 1,208, acceptance 848, a drop 944, the reader 1,200, the writers 1,248, a
   conversion 1,344; as the kit before it did, the planner and an add took more for a long chain, 3,104 at most.

   A call row has 4 bytes: input module, its channel, output module, its channel. The first two are its inlet, the last two
   its outlet. A settings row has 3: wavelength to the central module, central module, wavelength from it. Settings row i
   belongs to call row i. K is the number of calls.

   number  when                                                                            row
        0  success                                                                         K, or that of the table written
        1  n, m or r outside its limits, or w below r, below m or above 64                 0
        2  calls not a multiple of 4 bytes, settings not as long as they must be, or a
           call to be added not 4 bytes                                                    0
        3  more than 1,024 calls                                                           0
        4  output buffer too short                                                         0
        5  a module or channel that the shelf does not have                                first such
        6  inlet used by an earlier row                                                    first such
        7  outlet used by an earlier row                                                   first such
        8  with this row a module has more calls than there are centrals                   first such
           5 to 8 of a call to be added                                                    its row, K
        9  a wavelength or central that the shelf does not have                            that row
       10  the light does not reach the central it names                                   that row
       11  the light does not reach its output module                                      that row
       12  an earlier row has the same input module and central                            that row
       13  an earlier row has the same central and output module                           that row
       14  no trailer: under 12 bytes, wrong mark, or a kind that is not taken (reading
           takes 1 to 4, a conversion those it is for); for kinds 3 and 4 also under 14
           bytes, or a spare byte that is not zero                                         0
       15  distances not as stated, more than the file holds, or a note above 255 bytes    0
       16  note to be written above 255 bytes                                              0
       17  the table has no such row to be dropped                                         0
       18  w is not the larger of r and m, and a file to be written has no place for it,
           or a conversion would lose it                                                   0

   Every number but 0 is a refusal, and a refusal changes no byte of any buffer. */
#ifndef BOLIKWARU_H
#define BOLIKWARU_H

#include <stddef.h>
#include <stdint.h>

#ifdef __cplusplus
extern "C" {
#endif

/* The limits. n, m and r are at least 1, and w is at least the larger of r and m; there may be no calls, and the note may be
   empty. examples/c/limits.c checks these numbers and those below against the library. */
#define BOLIKWARU_MOST_CHANNELS 16
#define BOLIKWARU_MOST_CENTRALS 32
#define BOLIKWARU_MOST_MODULES 64
#define BOLIKWARU_MOST_WAVELENGTHS 64
#define BOLIKWARU_MOST_CALLS 1024
#define BOLIKWARU_MOST_NOTE 255

/* The bytes of the longest table of calls, of the most settings, of the longest file, and those that an add asks at most for the
   moved rows. */
#define BOLIKWARU_LONGEST_TABLE 4096
#define BOLIKWARU_MOST_SETTINGS 3072
#define BOLIKWARU_LONGEST_FILE 7437
#define BOLIKWARU_MOST_MOVED_ROWS 2046

/* The kinds of file: calls only, or planned; the old ones tell no cycle, the new ones do. */
#define BOLIKWARU_CALLS_ONLY 1
#define BOLIKWARU_PLANNED 2
#define BOLIKWARU_CALLS_WITH_CYCLE 3
#define BOLIKWARU_PLANNED_WITH_CYCLE 4

/* A network: n channels of each module, m central modules, r input modules and as many output modules, and w, the cycle of both
   gratings: a grating's own number of ports, and of wavelengths inside the shelf. An initialiser with three numbers leaves w
   0, which is refused. */
typedef struct {
    size_t n, m, r, w;
} bolikwaru_network;

/* The network of these sizes with the least cycle, the larger of r and m: what a plan file of kind 1 or 2 stands for.
   Nothing is refused here. */
static inline bolikwaru_network bolikwaru_of_sizes(size_t n, size_t m, size_t r) {
    const bolikwaru_network net = {n, m, r, r < m ? m : r};
    return net;
}

/* A number and a row of the table above. */
typedef struct {
    size_t number, row;
} bolikwaru_verdict;

/* A number and a row, and how many calls were moved to make room for others: 0 if refused. */
typedef struct {
    size_t number, row, moved;
} bolikwaru_planned;

/* A number and a row, and what the file tells: the network with its cycle, the kind, K as count, and where note, calls and
   settings begin, in bytes from the file's start. Where the file has no place for the cycle, kinds 1 and 2, w is the larger of r
   and m. In a calls-only file settings begin at the trailer. If refused, all but number and row are 0. */
typedef struct {
    size_t number, row;
    size_t n, m, r, w;
    size_t kind, count;
    size_t note_at, calls_at, settings_at;
} bolikwaru_told;

/* Plans. Success writes 3 K bytes at the front of `settings` and keeps the bytes beyond. Refusals are tried in the order
   1, 2, 3, 4, 5, 6, 7, 8. Where the number is 8, no settings at all would be accepted. */
bolikwaru_planned bolikwaru_plan(bolikwaru_network net,
                                 const uint8_t *calls, size_t calls_length,
                                 uint8_t *settings, size_t settings_length);

/* Judges settings from any planner, 3 bytes for each call: for calls in order the number is 0 exactly when the settings are
   lawful. Refusals are tried in the order 1, 2, 3, 5, 6, 7, then row by row 9 to 13. No buffer is written. */
bolikwaru_verdict bolikwaru_accept(bolikwaru_network net,
                                   const uint8_t *calls, size_t calls_length,
                                   const uint8_t *settings, size_t settings_length);

/* Adds one call to a running shelf: the table with the call in its last row, K, at the front of `calls_after`, and settings for
   it at the front of `settings_after`. From the settings given, whoever made them, the call is placed by one step of the choice
   rule; nothing is planned anew. `moved_rows` tells the rows that had to change their central, in the order in which the chain
   met them, by two bytes each, the high byte first; every other row keeps its settings. Success is 0 with K + 1 and the number
   of rows moved, and writes 4 (K + 1), 3 (K + 1) and 2 moved bytes; the bytes beyond are kept. Refusals are tried in the order
   of bolikwaru_accept for what is given; then 2 if `call` does not have 4 bytes, 3 if there are 1,024 calls already, 4 if there
   is no room for K + 1 calls, K + 1 settings and K moved rows; then 5, 6, 7 and 8 of the new call, with the row K. */
bolikwaru_planned bolikwaru_add(bolikwaru_network net,
                                const uint8_t *calls, size_t calls_length,
                                const uint8_t *settings, size_t settings_length,
                                const uint8_t *call, size_t call_length,
                                uint8_t *calls_after, size_t calls_after_length,
                                uint8_t *settings_after, size_t settings_after_length,
                                uint8_t *moved_rows, size_t moved_rows_length);

/* Drops one call: the table and its settings without that row at the front of `calls_after` and `settings_after`; later rows close
   up, and no call is moved. Success is 0 with K - 1, and writes 4 (K - 1) and 3 (K - 1) bytes; the bytes beyond are kept.
   Refusals are tried in the order of bolikwaru_accept for what is given; then 17 if the row is not below K, then 4. */
bolikwaru_verdict bolikwaru_drop(bolikwaru_network net,
                                 const uint8_t *calls, size_t calls_length,
                                 const uint8_t *settings, size_t settings_length,
                                 size_t row,
                                 uint8_t *calls_after, size_t calls_after_length,
                                 uint8_t *settings_after, size_t settings_after_length);

/* Reads a plan file of any kind. Refusals are tried in the order 14, 1, 3, 15, 5, 6, 7, then for a planned file row by row 9 to 13. No
   buffer is written. */
bolikwaru_told bolikwaru_read(const uint8_t *file, size_t file_length);

/* Writes a calls-only file, of kind 1. Settings have no bytes. Success writes note, calls and 12 bytes of trailer at the front of `out`
   and keeps the bytes beyond. Refusals are tried in the order 1, 2, 3, 16, 4, 5, 6, 7, 18. */
bolikwaru_verdict bolikwaru_write_calls(bolikwaru_network net,
                                        const uint8_t *note, size_t note_length,
                                        const uint8_t *calls, size_t calls_length,
                                        const uint8_t *settings, size_t settings_length,
                                        uint8_t *out, size_t out_length);

/* Writes a planned file, of kind 2. Settings have 3 bytes for each call. Success writes note, calls, settings and 12 bytes of trailer at
   the front of `out` and keeps the bytes beyond. Refusals are tried in the order 1, 2, 3, 16, 4, 5, 6, 7, then row by row 9
   to 13, then 18. */
bolikwaru_verdict bolikwaru_write_planned(bolikwaru_network net,
                                          const uint8_t *note, size_t note_length,
                                          const uint8_t *calls, size_t calls_length,
                                          const uint8_t *settings, size_t settings_length,
                                          uint8_t *out, size_t out_length);

/* Writes a calls-only file that tells the cycle, of kind 3: as bolikwaru_write_calls, with 14 bytes of trailer, and for every w
   within its limits. Refusals are tried in the order 1, 2, 3, 16, 4, 5, 6, 7; 18 is never given. */
bolikwaru_verdict bolikwaru_write_calls_with_cycle(bolikwaru_network net,
                                                   const uint8_t *note, size_t note_length,
                                                   const uint8_t *calls, size_t calls_length,
                                                   const uint8_t *settings, size_t settings_length,
                                                   uint8_t *out, size_t out_length);

/* Writes a planned file that tells the cycle, of kind 4: as bolikwaru_write_planned, with 14 bytes of trailer, and for every w
   within its limits. Refusals are tried in the order 1, 2, 3, 16, 4, 5, 6, 7, then row by row 9 to 13; 18 is never given. */
bolikwaru_verdict bolikwaru_write_planned_with_cycle(bolikwaru_network net,
                                                     const uint8_t *note, size_t note_length,
                                                     const uint8_t *calls, size_t calls_length,
                                                     const uint8_t *settings, size_t settings_length,
                                                     uint8_t *out, size_t out_length);

/* Converts an old file to a new one: kind 1 to kind 3, kind 2 to kind 4, at the front of `out`, two bytes longer; the bytes beyond
   are kept. Success tells K. The new file reads as the old one does, but for the kind. Refusals are tried in the order of
   bolikwaru_read, where 14 is given for any kind but 1 and 2; then 18, then 4. No file of kind 1 or 2 is refused 18. */
bolikwaru_verdict bolikwaru_convert_to_new(const uint8_t *file, size_t file_length,
                                           uint8_t *out, size_t out_length);

/* Converts a new file to an old one: kind 3 to kind 1, kind 4 to kind 2, at the front of `out`, two bytes shorter; the bytes beyond
   are kept. Success tells K. Refusals are tried in the order of bolikwaru_read, where 14 is given for any kind but 3 and 4; then 18
   if w is not the larger of r and m, since the old file could not tell it, then 4. There and back, either way round, gives the
   first file's bytes. */
bolikwaru_verdict bolikwaru_convert_to_old(const uint8_t *file, size_t file_length,
                                           uint8_t *out, size_t out_length);

#ifdef __cplusplus
}
#endif

#endif
