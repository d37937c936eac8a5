/* Judges a plan pair: judge GAME PLAN. An absent or unreadable file counts as empty. */
#include "desk.h"

#include <inttypes.h>
#include <stdio.h>

/* One byte more than the longest legal file, so that a longer one is refused and not cut. */
#define ROOM 49146

/* As many entries as any strategy has, and more. */
#define MOVES 4095

static size_t read_file(const char *path, uint8_t *buffer)
{
    FILE *file = fopen(path, "rb");
    if (file == NULL)
        return 0;
    size_t length = fread(buffer, 1, ROOM, file);
    if (ferror(file))
        length = 0;
    fclose(file);
    return length;
}

int main(int argc, char **argv)
{
    static uint8_t game[ROOM], plan[ROOM];
    static uint64_t moves[MOVES];
    uint64_t player, base, count;
    int64_t gain;

    if (argc != 3) {
        fprintf(stderr, "usage: judge GAME PLAN\n");
        return 2;
    }
    size_t game_len = read_file(argv[1], game);
    size_t plan_len = read_file(argv[2], plan);
    uint64_t refusal = desk_verdict(game, game_len, plan, plan_len,
                                    &player, &gain, &base, &count, moves, MOVES);
    if (refusal != 0) {
        printf("refusal %" PRIu64 "\n", refusal);
        return 0;
    }
    if (player == 0) {
        printf("accepted\n");
        return 0;
    }
    printf("player %" PRIu64 " gains %" PRId64 " of %" PRIu64 " by moves", player, gain, base);
    for (uint64_t set = 0; set < count; set++)
        printf(" %" PRIu64, moves[set]);
    printf("\n");
    return 0;
}
