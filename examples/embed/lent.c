/*
 * A device without a heap: it owns all memory that it uses, and asks for no more.
 *     lent deal 5 < examples/jacks-five-coins.txt
 * Its memory is enough for one table of sums of any deck; `cross`, `hits` and `meter` take two, and end here with 6.
 */
#include "vpoker_lent.h"

#include <stdio.h>
#include <string.h>

enum { WORDS = 4096, INPUT = 1 << 20, MEMORY = 4000000, ROOM = 8000000 };

static uint8_t words[WORDS], input[INPUT], room[ROOM];
static uint64_t memory[MEMORY];

int main(int argc, char **argv)
{
    size_t words_len = 0, taken, needed;
    for (int i = 1; i < argc; i++) {
        size_t more = strlen(argv[i]) + 1; /* each word with its zero byte */
        if (more > WORDS - words_len)
            return VPOKER_LENT_WORDS;
        memcpy(words + words_len, argv[i], more);
        words_len += more;
    }
    size_t input_len = fread(input, 1, INPUT, stdin);
    if (input_len == INPUT)
        return VPOKER_LENT_TOO_LONG;
    if (vpoker_words_to_lend(words, words_len, input, input_len, &needed) == VPOKER_LENT_DONE)
        fprintf(stderr, "takes %zu words of 64 bits\n", needed);
    uint8_t code = vpoker_answer_lent(words, words_len, input, input_len, memory, MEMORY, room, ROOM, &taken);
    fwrite(room, 1, taken, stdout);
    return code;
}
