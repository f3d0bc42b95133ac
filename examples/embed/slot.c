/*
 * A machine that asks for itself: certifies its pay table, and then tells the best hold of each deal that comes in.
 *     slot examples/jacks-9-6.txt        then, for example, 8c 8d 8h 8s 3c
 * It bets one coin.
 */
#include "vpoker.h"

#include <stdio.h>
#include <string.h>

enum { TABLE = 1 << 16, LINE = 64 };

static uint8_t table[TABLE + LINE], room[8000000];

/* Asks with the first bytes of the table, and says how long the text in the room is; 0 where it is no answer. */
static size_t ask(const char *words, size_t words_len, size_t length)
{
    size_t taken;
    uint8_t code = vpoker_answer((const uint8_t *)words, words_len, table, length, room, sizeof room, &taken);
    if (code == VPOKER_DONE)
        return taken;
    fprintf(stderr, "code %d: %.*s\n", code, (int)taken, (const char *)room);
    return 0;
}

int main(int argc, char **argv)
{
    char deal[LINE - 8]; /* five cards, a line feed and a zero byte are 16 */
    FILE *file = argc == 2 ? fopen(argv[1], "rb") : NULL;
    if (file == NULL) {
        fprintf(stderr, "usage: slot TABLE\n");
        return 2;
    }
    size_t length = fread(table, 1, TABLE, file);
    if (ferror(file) || length == TABLE) {
        fprintf(stderr, "slot: %s cannot be read, or is longer than a pay table is\n", argv[1]);
        return 2;
    }
    size_t end = ask("certify\0" "1", sizeof "certify\0" "1", length), line = end - 4;
    if (end == 0)
        return 1;
    do /* the return stands in the last line but one, before "end" */
        line--;
    while (room[line - 1] != '\n');
    fwrite(room + line, 1, end - 4 - line, stdout);
    while (fgets(deal, sizeof deal, stdin)) {
        if (strchr(deal, '\n') == NULL && !feof(stdin)) {
            fprintf(stderr, "slot: a line longer than a deal\n");
            return 2;
        }
        int more = snprintf((char *)table + length, LINE, "\ndeal %s", deal);
        fwrite(room, 1, ask("deal\0" "1", sizeof "deal\0" "1", length + (size_t)more), stdout);
    }
    return 0;
}
