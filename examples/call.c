/*
 * Calls the library from C: call ARRAY TABLE says in words what handover_check answers and, where rule 1 or 3 is broken, how many bits
 * handover_mend would set.
 *
 *     cc -std=c99 -Wall -Wextra -pedantic examples/call.c $(pkg-config --cflags --libs handover) -o call
 *
 * Exit status: 0 held, 1 a rule is broken, 2 a file is refused or the command is wrong.
 */
#include <handover.h>
#include <stdio.h>

/* A byte more than the longest file that is read, so that a longer one is seen to be too long. */
static uint8_t array[17425];
static uint8_t table[59517];

/* The longest table that is read. */
static uint8_t mended[59516];

/* A file that can't be opened counts as empty, as for judge. */
static size_t read_file(const char *path, uint8_t *buffer, size_t room)
{
    FILE *file = fopen(path, "rb");
    size_t n = 0;

    if (file != NULL) {
        n = fread(buffer, 1, room, file);
        fclose(file);
    }
    return n;
}

static int say(uint64_t answer)
{
    unsigned code = (unsigned)(answer & 0xff);
    unsigned first = (unsigned)(answer >> 8 & 0xffff);
    unsigned second = (unsigned)(answer >> 24 & 0xffff);
    unsigned third = (unsigned)(answer >> 40);

    switch (code) {
    case 0: printf("held: the table is true of every configuration that the array can reach\n"); break;
    case 1: printf("rule 1: the row of name %u lacks the channel that its own new opens\n", first); break;
    case 2: printf("rule 2: the start exceeds balance %u\n", first); break;
    case 3: printf("rule 3: agent %u may receive argument %u from agent %u, and its row does not allow it\n", first, third, second); break;
    case 4: printf("rule 4: when agent %u receives from agent %u, balance %u may rise\n", first, second, third); break;
    case 5: printf("rule 5: claim %u, or its set, does not follow from its balance\n", first); break;
    default: printf("refused: number %u, place %u\n", code - 100, first); break;
    }
    return code == 0 ? 0 : code < 100 ? 1 : 2;
}

/* The table was read, so that nothing is refused. */
static void say_missing(const uint8_t *array_bytes, size_t array_len, const uint8_t *table_bytes, size_t table_len)
{
    uint64_t answer = handover_mend(array_bytes, array_len, table_bytes, table_len, mended, sizeof mended);

    printf("bits that rules 1 and 3 ask for: %lu\n", (unsigned long)(answer >> 8));
}

int main(int argc, char **argv)
{
    size_t array_len, table_len;
    uint64_t answer;
    int status;

    if (argc != 3) {
        fprintf(stderr, "usage: call ARRAY TABLE\n");
        return 2;
    }
    array_len = read_file(argv[1], array, sizeof array);
    table_len = read_file(argv[2], table, sizeof table);
    answer = handover_check(array, array_len, table, table_len);
    status = say(answer);
    if ((answer & 0xff) == 1 || (answer & 0xff) == 3)
        say_missing(array, array_len, table, table_len);
    return status;
}
