/*
 * The library for C, and for any language that calls C: rt lib, in crates/desk_exports, writes
 * crates/desk_exports/out/libdesk_exports.a, to be linked into x86-64 Linux programs.
 *
 * A slice is passed as a pointer and, right after it, its length in entries. The pointer is never
 * NULL, not even where the length is 0. Everything that a call writes to is lent to it alone: no
 * two of a call's pointers may reach the same memory unless both are const.
 *
 * Each call returns the number of the refusal, or 0 for none: 1 to 13 send the game file back,
 * 14 to 16 the plan file, 19 to 21 the play sheet, 17 is a number or a table that a writer cannot
 * take, and 18 a result buffer that is too short. On a refusal everything lent keeps what it held.
 * Otherwise the results stand at the front of their buffers, and what lies past them keeps what it
 * held.
 *
 * Nothing is kept between calls, so calls may be made from several threads. A call works on its
 * stack: 2 MiB are enough as measured; nothing proves it.
 *
 * Written by native/derived_files from crates/desk_exports/src/lib.rt.
 */
#ifndef DESK_H
#define DESK_H

#include <stddef.h>
#include <stdint.h>

#ifdef __cplusplus
extern "C" {
#endif

/* Checks a game file: its node count N, its set count H and its root chance weight D0. */
uint64_t desk_check_game(
    const uint8_t *game, size_t game_len,
    uint64_t *nodes,
    uint64_t *sets,
    uint64_t *root_weight);

/*
 * All fields of a game, one buffer each. By set, H entries: player (0 is player 1) and move count.
 * By node, N entries: kind (0 leaf, 1 decision, 2 chance), parent, move at the parent, chance
 * weight, a decision's set, a chance node's move count and a leaf's two payoffs; what a kind lacks
 * is 0.
 */
uint64_t desk_game_fields(
    const uint8_t *game, size_t game_len,
    uint64_t *set_players, size_t set_players_len,
    uint64_t *set_moves, size_t set_moves_len,
    uint64_t *kinds, size_t kinds_len,
    uint64_t *parents, size_t parents_len,
    uint64_t *moves, size_t moves_len,
    uint64_t *weights, size_t weights_len,
    uint64_t *node_sets, size_t node_sets_len,
    uint64_t *chance_moves, size_t chance_moves_len,
    int64_t *payoffs1, size_t payoffs1_len,
    int64_t *payoffs2, size_t payoffs2_len);

/* D1, D2 and all weights of a plan, in file order: one for each move of each set. */
uint64_t desk_plan_fields(
    const uint8_t *game, size_t game_len,
    const uint8_t *plan, size_t plan_len,
    uint64_t *d1,
    uint64_t *d2,
    uint64_t *weights, size_t weights_len);

/*
 * The payoff table, one buffer a column, and how many rows it has: no more than there are leaves.
 */
uint64_t desk_payoff_table(
    const uint8_t *game, size_t game_len,
    uint64_t *sequence1, size_t sequence1_len,
    uint64_t *sequence2, size_t sequence2_len,
    int64_t *sum1, size_t sum1_len,
    int64_t *sum2, size_t sum2_len,
    uint64_t *rows);

/*
 * Values over D0 x D1 x D2; player 1's best value over D0 x D2 and player 2's over D0 x D1; and D0,
 * D1 and D2.
 */
uint64_t desk_values(
    const uint8_t *game, size_t game_len,
    const uint8_t *plan, size_t plan_len,
    int64_t *value1,
    int64_t *value2,
    int64_t *best1,
    int64_t *best2,
    uint64_t *d0,
    uint64_t *d1,
    uint64_t *d2);

/*
 * The verdict: `player` is 0 where the pair is accepted, else the player, 1 or 2, who is shown to
 * gain. His gain is `gain` / `base`, where `base` is D0 x D1 x D2, and the shown strategy takes
 * `moves[0]` to `moves[count - 1]` in his sets, in the order of their numbers. An accepted pair has
 * `gain` and `count` 0 and needs no room. 4,095 entries are always enough.
 */
uint64_t desk_verdict(
    const uint8_t *game, size_t game_len,
    const uint8_t *plan, size_t plan_len,
    uint64_t *player,
    int64_t *gain,
    uint64_t *base,
    uint64_t *count,
    uint64_t *moves, size_t moves_len);

/*
 * Whether a pair passes at a tolerance, given in thousandths of a payoff point: `passes` is 1 where
 * neither player has a strategy that gains more than `tolerance` / 1000, else 0.
 */
uint64_t desk_tolerates(
    const uint8_t *game, size_t game_len,
    const uint8_t *plan, size_t plan_len,
    uint16_t tolerance,
    uint64_t *passes);

/*
 * What the desk program prints for two files that are not sent back, and how many bytes it has.
 * 69,864 bytes are always enough.
 */
uint64_t desk_report(
    const uint8_t *game, size_t game_len,
    const uint8_t *plan, size_t plan_len,
    uint8_t *out, size_t out_len,
    uint64_t *size);

/*
 * What the desk program prints for a refusal's number, and how many bytes it has. 29 bytes are
 * always enough.
 */
uint64_t desk_refusal_line(
    uint64_t number,
    uint8_t *out, size_t out_len,
    uint64_t *size);

/* Makes the plan of a play sheet, and gives the length of its file. */
uint64_t desk_plan_from_sheet(
    const uint8_t *game, size_t game_len,
    const uint8_t *sheet, size_t sheet_len,
    uint8_t *out, size_t out_len,
    uint64_t *size);

/* Makes the play sheet of a plan, and gives its length. */
uint64_t desk_sheet_from_plan(
    const uint8_t *game, size_t game_len,
    const uint8_t *plan, size_t plan_len,
    uint8_t *out, size_t out_len,
    uint64_t *size);

/*
 * Writes a plan file, from D1, D2 and all weights as one list in file order, and gives its length.
 */
uint64_t desk_write_plan(
    uint64_t d1,
    uint64_t d2,
    const uint64_t *weights, size_t weights_len,
    uint8_t *out, size_t out_len,
    uint64_t *size);

/*
 * Writes a game file, from D0 and all fields as `desk_game_fields` gives them, and gives its
 * length.
 */
uint64_t desk_write_game(
    uint64_t root_weight,
    const uint64_t *set_players, size_t set_players_len,
    const uint64_t *set_moves, size_t set_moves_len,
    const uint64_t *kinds, size_t kinds_len,
    const uint64_t *parents, size_t parents_len,
    const uint64_t *moves, size_t moves_len,
    const uint64_t *weights, size_t weights_len,
    const uint64_t *node_sets, size_t node_sets_len,
    const uint64_t *chance_moves, size_t chance_moves_len,
    const int64_t *first_payoffs, size_t first_payoffs_len,
    const int64_t *second_payoffs, size_t second_payoffs_len,
    uint8_t *out, size_t out_len,
    uint64_t *size);

#ifdef __cplusplus
}
#endif

#endif
