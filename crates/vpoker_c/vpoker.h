/*
 * vpoker as one function: what the program answers to its words and its input, without starting a process.
 *
 * The contract of `vpoker_answer` in src/lib.rt is proved; this page says it in the words of C, and what a caller owes,
 * which nothing checks. README.md, "Inside another program", says how it is linked.
 */
#ifndef VPOKER_H
#define VPOKER_H

#include <stddef.h>
#include <stdint.h>

#ifdef __cplusplus
extern "C" {
#endif

/* How a call ends. The codes are the exit statuses of the program (docs/FORMATS.md). */
enum {
    VPOKER_DONE = 0,         /* the room has the whole text */
    VPOKER_FINDING = 1,      /* the same; the input breaks a rule that it claims to keep, and the text names it; of sessions,
                                some session breaks a law */
    VPOKER_USAGE = 2,        /* the same; the words are no command, and the text is "usage" and a line feed */
    VPOKER_REFUSED = 3,      /* the same; the input is refused, and the text names the line, or the record of CSV text */
                             /* 4 comes only from the program: an input in memory has no read that fails */
    VPOKER_ROOM = 5,         /* the room is smaller than the text, and full of its beginning */
    VPOKER_NO_MEMORY = 6,    /* there was no memory; nothing was written */
    VPOKER_TOO_LONG = 7,     /* the command reads an input, and this one has more than 67108864 bytes; nothing was written */
    VPOKER_WORDS = 8         /* the words are not handed over as they should be; nothing was written */
};

/*
 * Answers a command to an input.
 *
 * words   the words of the command, as behind the program's name on a command line, one behind another, each ended by a
 *         zero byte, in words_len bytes, the zero bytes counted. In C: "deal\0" "5" and its sizeof; not "deal 5", and
 *         without the program's name, which give "usage". Each is UTF-8; else, or where the last has no zero byte, the
 *         code is VPOKER_WORDS. No bytes are no words.
 * input   what the program would read from its standard input, in input_len bytes. It may have zero bytes, and needs none
 *         at its end.
 * room    where the text goes, which the program would write to its standard output, with room for room_len bytes. A call
 *         takes room_len bytes from malloc too, so a room that is much larger than the text costs memory, and one that is
 *         too large for malloc ends with VPOKER_NO_MEMORY whatever the words.
 * taken   where the number of bytes of the text that stand in the room is written, whatever the code is.
 *
 * Call it as
 *     code = vpoker_answer((const uint8_t *)"deal\0" "5", sizeof "deal\0" "5", input, input_len, room, room_len, &taken);
 * and take the text where code is 0, 1, 2 or 3, not where it is 0 alone.
 *
 * With VPOKER_DONE, VPOKER_FINDING, VPOKER_USAGE and VPOKER_REFUSED the first *taken bytes of the room are the whole text:
 * byte for byte that of the program, which ends with the same code. With VPOKER_ROOM the text is longer than the room,
 * *taken is room_len, and the room is full of the text's beginning; with room enough this code never comes. With the
 * others *taken is 0. What is behind the first *taken bytes of the room is as it was. No zero byte ends the text.
 *
 * How much room: 4 KiB for deal, check, cross, hits, multi, play and tables, 16 KiB for audit and holds, 8000000 bytes for
 * certify and compile, more for meter; the texts of replay and sessions grow with the logs. These are not proved; where a
 * room was too small, call again with more: all of the work is done again. The answer depends on nothing but the words and
 * the input. No call can be broken off; the longest are told in README.md, "Speed".
 *
 * A caller owes that
 * - none of the four pointers is null, not even for 0 bytes;
 * - words and input are readable, room and *taken writable, for as many bytes as said;
 * - room and *taken overlap neither each other nor the words nor the input, and nobody else reads or writes them during
 *   the call, or writes the words or the input;
 * - the program's malloc, realloc and free are of one allocator;
 * - the stack has 512 KiB left (220 KiB were measured);
 * - it is not called from a signal handler, nor from the forked child of a process with threads.
 *
 * The words, the input and the room stay the caller's. It keeps no pointer, no memory and no state between calls, so
 * threads may call it at the same time, each with a room of its own. During a call it takes memory from malloc: a copy of
 * the input, room_len bytes, and what the command takes: a table of sums has 23 MB for 52 cards and 28 MB for 54; deal,
 * certify and audit take one, multi two, meter two and at most 16 MB more, replay one for each column of the pay table,
 * sessions as many and its logs, which are somewhat longer than the CSV text, play one more than that and its log,
 * compile one and at most 93 MB more, cross and hits two, holds, check and tables none.
 */
uint8_t vpoker_answer(const uint8_t *words, size_t words_len, const uint8_t *input, size_t input_len, uint8_t *room,
                      size_t room_len, size_t *taken);

#ifdef __cplusplus
}
#endif

#endif
