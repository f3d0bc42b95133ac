/*
 * vpoker without a heap: what the program answers to its words and its input, in memory that the caller lends.
 *
 * The contracts of the two functions in src/lib.rt are proved; this page says them in the words of C, and what a caller
 * owes, which nothing checks. The library asks for no memory: it has no call of malloc in it.
 */
#ifndef VPOKER_LENT_H
#define VPOKER_LENT_H

#include <stddef.h>
#include <stdint.h>

#ifdef __cplusplus
extern "C" {
#endif

/* How a call ends. The codes are the exit statuses of the program (docs/FORMATS.md). */
enum {
    VPOKER_LENT_DONE = 0,      /* the room has the whole text */
    VPOKER_LENT_FINDING = 1,   /* the same; the input breaks a rule that it claims to keep, and the text names it */
    VPOKER_LENT_USAGE = 2,     /* the same; the words are no command, and the text is "usage" and a line feed */
    VPOKER_LENT_REFUSED = 3,   /* the same; the input is refused, and the text names the line or the record */
    VPOKER_LENT_ROOM = 5,      /* the room is smaller than the text, and full of its beginning */
    VPOKER_LENT_NO_MEMORY = 6, /* the answer takes more words of memory than were lent; no text was written */
    VPOKER_LENT_TOO_LONG = 7,  /* the command reads an input, and this one has more than 67108864 bytes; no text */
    VPOKER_LENT_WORDS = 8      /* the words are not handed over as they should be; nothing was written */
};

/*
 * Answers a command to an input.
 *
 * words   the words of the command, as behind the program's name on a command line, one behind another, each ended by a
 *         zero byte, in words_len bytes, the zero bytes counted. In C: "deal\0" "5" and its sizeof; not "deal 5", and
 *         without the program's name. Each is UTF-8; else, or where the last has no zero byte, the code is
 *         VPOKER_LENT_WORDS. No bytes are no words.
 * input   what the program would read from its standard input, in input_len bytes.
 * memory  memory_len words of 64 bits to work in, which may hold any numbers. How many are enough tells
 *         vpoker_words_to_lend; one less ends with VPOKER_LENT_NO_MEMORY, before any text.
 * room    where the text goes, with room for room_len bytes. The bytes behind the text become zero.
 * taken   where the number of bytes of the text that stand in the room is written, whatever the code is.
 *
 * Call it as
 *     vpoker_answer_lent((const uint8_t *)"deal\0" "5", sizeof "deal\0" "5", input, input_len, memory, memory_len,
 *                        room, room_len, &taken)
 *
 * With VPOKER_LENT_DONE, _FINDING, _USAGE and _REFUSED the first *taken bytes of the room are the whole text: byte for byte
 * that of the program, which ends with the same code. With VPOKER_LENT_ROOM the text is longer than the room, *taken is
 * room_len, and the room is full of the text's beginning. With _NO_MEMORY and _TOO_LONG *taken is 0, and the room is all
 * zero. `compile`, `play` and `sessions` take memory of their own, and always end with _NO_MEMORY, but for a refused input.
 *
 * How much room: 4 KiB for deal, cross, check, hits, multi, replay without costs and tables, 16 KiB for audit and holds,
 * 8000000 bytes for certify, more for meter. These are not proved.
 *
 * A caller owes that
 * - none of the five pointers is null, not even for 0 bytes or words;
 * - words and input are readable, memory, room and *taken writable, for as many bytes as said; memory is aligned as
 *   uint64_t is;
 * - memory, room and *taken overlap neither each other nor the words nor the input, and nobody else uses them during the
 *   call;
 * - the stack has 512 KiB left.
 *
 * It keeps no pointer and no state between calls, so threads may call it at the same time, each with memory of its own.
 */
uint8_t vpoker_answer_lent(const uint8_t *words, size_t words_len, const uint8_t *input, size_t input_len, uint64_t *memory,
                           size_t memory_len, uint8_t *room, size_t room_len, size_t *taken);

/*
 * Writes to *needed how many words of 64 bits the answer to these words and this input takes, no more and no fewer, and
 * gives 0. A table of sums has 2893164 words for 52 cards (23 MB) and 3505051 for 54. Where no number is enough, *needed
 * is 0, and the code is what vpoker_answer_lent would end with.
 */
uint8_t vpoker_words_to_lend(const uint8_t *words, size_t words_len, const uint8_t *input, size_t input_len, size_t *needed);

#ifdef __cplusplus
}
#endif

#endif
