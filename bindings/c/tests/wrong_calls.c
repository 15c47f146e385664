/* So many calls with numbers and bytes at random, on a table without a game and on one with a game, which goes on: for valgrind and the
 * address sanitizer. Each text stands in a block of its own size, and so does each room, so that a byte beyond is seen. Before them each
 * call once with each of its pointers NULL, which leaves the table as it was. */
#include <riichi_table.h>
#include <stdio.h>
#include <stdlib.h>
#include <string.h>

static uint32_t number(void) { return (uint32_t)rand() ^ (uint32_t)rand() << 16; }

static uint8_t *bytes(size_t *size) {
    static const char *const texts[] = {
        "{\"type\":\"none\"}", "{\"type\":\"join\",\"name\":\"a\"}", "{\"type\":\"dahai\",\"actor\":0,\"pai\":\"1m\",\"tsumogiri\":true}", "game limit=1 draws=1 red=0\nwall 1m\n",
        "replay\n", "hand\n1m\n", "selfplay\n7\n", "referee\n0\n", "", "observe\n", "safe\n3\n", "keep\n0\n", "selfplay",
    };
    const char *text = texts[(size_t)rand() % (sizeof texts / sizeof *texts)];
    size_t sizes[] = { strlen(text), 0, 1, 4095, 4096, 5000 };
    int k = rand() % 12;
    *size = sizes[k < 6 ? k : 0];
    uint8_t *block = malloc(*size ? *size : 1);
    for (size_t i = 0; i < *size; i++) block[i] = k == 0 || k >= 6 ? (uint8_t)text[i] : (uint8_t)rand();
    return block;
}

static uint32_t seat_of(void) {
    uint32_t k = number() % 8;
    return k < 5 ? k : number();
}

/* How many calls with a NULL are answered by anything but RIICHI_NULL. */
static int calls_without(riichi_table *table) {
    uint8_t text[] = "hand\n", room[9];
    uint32_t seat, rule;
    uint64_t size, other;
    riichi_state state;
    riichi_seat at;
    riichi_turn turn;
    const uint32_t answers[] = {
        riichi_run(NULL, 5, text, 0, room, 9, &size, room, 0, &other), riichi_run(text, 5, NULL, 0, room, 9, &size, room, 0, &other),
        riichi_run(text, 5, text, 0, NULL, 9, &size, room, 0, &other), riichi_run(text, 5, text, 0, room, 9, NULL, room, 0, &other),
        riichi_run(text, 5, text, 0, room, 9, &size, NULL, 0, &other), riichi_run(text, 5, text, 0, room, 9, &size, room, 0, NULL),
        riichi_table_open(NULL, text, 5), riichi_table_open(table, NULL, 0),
        riichi_table_open_seed(NULL, text, 5, 0, 1, 1, true, true), riichi_table_open_seed(table, NULL, 0, 0, 1, 1, true, true),
        riichi_table_close(NULL), riichi_table_gone(NULL, 0), riichi_table_expire(NULL, 0, 0, 0),
        riichi_table_sit(NULL, text, 5, &seat), riichi_table_sit(table, NULL, 0, &seat), riichi_table_sit(table, text, 5, NULL),
        riichi_table_say(NULL, 0, text, 5, &rule), riichi_table_say(table, 0, NULL, 0, &rule), riichi_table_say(table, 0, text, 5, NULL),
        riichi_table_turn(NULL, &turn), riichi_table_turn(table, NULL),
        riichi_table_choices(NULL, 0, &size), riichi_table_choices(table, 0, NULL),
        riichi_table_choose(NULL, 0, 0, &rule, &turn), riichi_table_choose(table, 0, 0, NULL, &turn), riichi_table_choose(table, 0, 0, &rule, NULL),
        riichi_table_state(NULL, &state), riichi_table_state(table, NULL), riichi_table_seat(NULL, 0, &at), riichi_table_seat(table, 0, NULL),
        riichi_table_line(NULL, 0, 0, room, 9, &size), riichi_table_line(table, 0, 0, NULL, 9, &size), riichi_table_line(table, 0, 0, room, 9, NULL),
        riichi_table_pending(NULL, 0, room, 9, &size), riichi_table_pending(table, 0, NULL, 9, &size), riichi_table_pending(table, 0, room, 9, NULL),
        riichi_table_record(NULL, room, 9, &size), riichi_table_record(table, NULL, 9, &size), riichi_table_record(table, room, 9, NULL),
    };
    int wrong = 0;
    for (size_t k = 0; k < sizeof answers / sizeof *answers; k++) wrong += answers[k] != RIICHI_NULL;
    return wrong;
}

int main(int words, char **word) {
    riichi_table empty = RIICHI_TABLE_EMPTY, table = RIICHI_TABLE_EMPTY;
    riichi_state state;
    riichi_seat at;
    riichi_turn turn;
    uint8_t seed[32] = { 1 };
    uint32_t seat, rule, sum = 0;
    uint64_t length, told_length;
    srand(1);
    riichi_table_open_seed(&table, seed, sizeof seed, 0, 200, 10000, true, true);
    for (int i = 0; i < 4; i++) {
        char line[] = "{\"type\":\"join\",\"name\":\"a\"}";
        line[23] = (char)('a' + i);
        riichi_table_sit(&table, (uint8_t *)line, sizeof line - 1, &seat);
    }
    int wrong = calls_without(&table);
    if (wrong || riichi_table_state(&table, &state) != RIICHI_DONE || state.entries != 4) {
        fprintf(stderr, "%d calls with a NULL are answered otherwise\n", wrong);
        return 1;
    }
    for (int calls = words > 1 ? atoi(word[1]) : 10000; calls > 0; calls--) {
        size_t size, other, most = (size_t)rand() % 3 ? (size_t)rand() % 200 : 70000;
        size_t fits = (size_t)rand() % 60;
        uint8_t *text = bytes(&size), *given = bytes(&other), *room = malloc(most ? most : 1), *told = malloc(fits ? fits : 1);
        riichi_table *on = rand() % 4 ? &table : &empty;
        switch (rand() % 16) {
        case 0: sum += riichi_table_open(on, text, size); break;
        case 1: sum += riichi_table_open_seed(&empty, text, size, number(), number() % 300, number() % 4000000, rand() & 1, rand() & 1); break;
        case 2: sum += riichi_table_sit(on, text, size, &seat); break;
        case 3: sum += riichi_table_say(on, seat_of(), text, size, &rule); break;
        case 4: sum += riichi_table_gone(on, rand() % 50 ? 4 : seat_of()); break;
        case 5: sum += riichi_table_state(on, &state) ? 0 : riichi_table_expire(on, rand() % 3 ? state.window : number(), 0, number()); break;
        case 6: sum += riichi_table_state(on, &state); break;
        case 7: sum += riichi_table_seat(on, seat_of(), &at); break;
        case 8: sum += riichi_table_line(on, seat_of(), number() % 50, room, most, &length); break;
        case 9: sum += riichi_table_pending(on, seat_of(), room, most, &length); break;
        case 10: sum += riichi_table_record(on, room, most, &length); break;
        case 11: sum += rand() % 20 ? 0 : riichi_run(text, size, given, other, room, most, &length, told, fits, &told_length); break;
        case 12: sum += riichi_table_turn(on, &turn); break;
        case 13: sum += riichi_table_choices(on, seat_of(), &length); break;
        case 14: sum += riichi_table_choose(on, seat_of(), number() % 20, &rule, &turn); break;
        default: sum += riichi_table_close(&empty); break;
        }
        free(text);
        free(given);
        free(room);
        free(told);
    }
    riichi_table_close(&empty);
    riichi_table_close(&table);
    printf("answers %u\n", sum);
    return 0;
}
