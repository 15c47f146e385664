/* Four seats that each give a random one of the answers that they may give: a whole game, its points, and the checked sum of its record.
 *
 *     cc random_seats.c $(pkg-config --cflags --libs riichi_table) && ./a.out 7 */
#include <riichi_table.h>
#include <stdio.h>
#include <stdlib.h>
#include <string.h>

static int fail(const char *call, uint32_t answer) {
    fprintf(stderr, "%s answers %u\n", call, answer);
    return 1;
}

int main(int words, char **word) {
    static uint8_t record[1 << 20], summary[256], told[256];
    riichi_table table = RIICHI_TABLE_EMPTY;
    riichi_turn turn;
    riichi_seat at;
    uint8_t seed[32] = { 0 };
    uint32_t answer, seat, rule;
    uint64_t choices, length, size, told_size;
    srand(words > 1 ? (unsigned)atoi(word[1]) : 0);
    for (size_t i = 0; i < sizeof seed; i++) seed[i] = (uint8_t)rand();

    /* A table, and who sits at it. */
    answer = riichi_table_open_seed(&table, seed, sizeof seed, 0, 200, 10000, true, true);
    if (answer != RIICHI_DONE) return fail("riichi_table_open_seed", answer);
    for (int i = 0; i < 4; i++) {
        char line[64];
        int bytes = snprintf(line, sizeof line, "{\"type\":\"join\",\"name\":\"seat%d\"}", i);
        answer = riichi_table_sit(&table, (const uint8_t *)line, (size_t)bytes, &seat);
        if (answer != RIICHI_DONE) return fail("riichi_table_sit", answer);
    }

    /* Who has a choice is asked, and gives the number of an answer. (Its line, by riichi_table_line, says what each is.) */
    answer = riichi_table_turn(&table, &turn);
    while (answer == RIICHI_DONE && !turn.is_over) {
        answer = riichi_table_choices(&table, turn.seat, &choices);
        if (answer != RIICHI_DONE) return fail("riichi_table_choices", answer);
        answer = riichi_table_choose(&table, turn.seat, (uint32_t)((uint64_t)rand() % choices), &rule, &turn);
    }
    if (answer != RIICHI_DONE) return fail("riichi_table_choose", answer);

    printf("deeds %u points", turn.deeds);
    for (seat = 0; seat < 4; seat++) printf(" %d", riichi_table_seat(&table, seat, &at) == RIICHI_DONE ? at.points : 0);
    answer = riichi_table_record(&table, record, sizeof record, &length);
    if (answer != RIICHI_DONE) return fail("riichi_table_record", answer);
    answer = riichi_run((const uint8_t *)"replay\n", 7, record, length, summary, sizeof summary, &size, told, sizeof told, &told_size);
    printf("\nreplay %u\n%.*s", answer, (int)size, (const char *)summary);
    return riichi_table_close(&table) == RIICHI_DONE ? 0 : 1;
}
