/*
 * The program again, over the library: answers the words of its command line to its standard input, and ends with the
 * same codes.
 *     answer certify 5 < examples/jacks-9-6.txt
 * An input that cannot be read ends it with 4, an output that cannot be written with 5, as it does the program.
 */
#define _POSIX_C_SOURCE 200112L

#include "vpoker.h"

#include <signal.h>
#include <stdio.h>
#include <stdlib.h>
#include <string.h>

enum { READ_FAULT = 4, WRITE_FAULT = 5, MOST = 67108864 };

static uint8_t *words, *input, *room;
static size_t words_len, input_len, room_len = 8000000, taken;

static void *some(void *memory)
{
    if (memory == NULL)
        exit(VPOKER_NO_MEMORY);
    return memory;
}

/* The words of the command line, each with its zero byte. */
static void take_words(int count, char **given)
{
    for (int i = 0; i < count; i++)
        words_len += strlen(given[i]) + 1;
    uint8_t *end = words = some(malloc(words_len + 1));
    for (int i = 0; i < count; i++)
        end = (uint8_t *)memcpy(end, given[i], strlen(given[i]) + 1) + strlen(given[i]) + 1;
}

/* Reads the input, and one byte more than any command takes where there is one. */
static int read_input(void)
{
    size_t size = 0, got;
    do {
        if (input_len == size)
            input = some(realloc(input, size = size < 1 << 16 ? 1 << 16 : size * 2));
        size_t room_left = size - input_len, most_left = (size_t)MOST + 1 - input_len;
        input_len += got = fread(input + input_len, 1, room_left < most_left ? room_left : most_left, stdin);
    } while (got > 0 && input_len <= MOST);
    return ferror(stdin) == 0;
}

/* Calls again with more room where the text is longer than the room. */
static uint8_t answer(size_t length)
{
    uint8_t code;
    while ((code = vpoker_answer(words, words_len, input, length, room, room_len, &taken)) == VPOKER_ROOM)
        room = some(realloc(room, room_len *= 8));
    return code;
}

int main(int argc, char **argv)
{
    signal(SIGPIPE, SIG_IGN); /* a closed pipe is a fault of writing */
    take_words(argc - 1, argv + 1);
    input = some(malloc(1));
    room = some(malloc(room_len));
    /* Whoever reads an input refuses one of no bytes; the others have their answer without it. */
    uint8_t code = answer(0);
    if (code == VPOKER_REFUSED) {
        if (!read_input())
            return READ_FAULT;
        code = answer(input_len);
    }
    if (fwrite(room, 1, taken, stdout) < taken || fflush(stdout) != 0)
        code = WRITE_FAULT;
    return code;
}
