/* The referee of riichi mahjong in a program's own process: the commands of riichi_table that wait for nobody, on bytes in memory, and
 * a table that goes on, one arrival at a time.
 *
 * Every call is total: whatever numbers and bytes it is given, it answers with one of the numbers below, reads and writes nothing
 * beyond what it was given, and gives back what memory it took (a table's memory when it is closed). What each call promises is proved
 * of the code behind it, for every caller that keeps three rules:
 *
 *   1. Each pointer points to what its type says; a text is a pointer and the number of its bytes, and for 0 bytes any
 *      pointer but NULL serves. Places that are written don't overlap others of the same call.
 *   2. A table is all zero before its first use (RIICHI_TABLE_EMPTY), is never copied, and its fields are left alone.
 *   3. A table is used by one call at a time. Several tables may be used side by side, each by its own thread.
 *
 * A pointer that is NULL is answered by RIICHI_NULL. That isn't proved: the code behind the calls takes no NULL, and the lines at the end of
 * this file look for it first. Who calls the library without this file, from another language, has to look himself.
 *
 * Memory comes from malloc, realloc and free. No call keeps a pointer that it was given, starts a thread, waits, reads a clock, a
 * file or a socket, or writes to one.
 */
#ifndef RIICHI_TABLE_H
#define RIICHI_TABLE_H

#include <stdbool.h>
#include <stddef.h>
#include <stdint.h>

#ifdef __cplusplus
extern "C" {
#endif

/* What the calls of a table answer. */
enum {
    RIICHI_DONE = 0,          /* what was asked is done */
    RIICHI_BACK = 1,          /* sit: a seat that was gone is taken back */
    RIICHI_LATE = 2,          /* say: the window of the deed that the line answers is closed already; the line is entered */
    RIICHI_REFUSED = 3,       /* say: the answer breaks a rule; the seat is asked again */
    RIICHI_CLOSING = 4,       /* say: the answer breaks a rule, the sixteenth time in a row; the seat is gone */
    RIICHI_STALE = 5,         /* expire: another window is open, or none; nothing has changed */
    RIICHI_EARLY = 6,         /* expire: less time than the limit has passed; nothing has changed */
    /* From here on nothing has changed. */
    RIICHI_NO_GAME = 16,      /* there is no game on the table */
    RIICHI_IN_PLAY = 17,      /* open: a game stands on the table already */
    RIICHI_NO_MEMORY = 18,    /* malloc gave no memory */
    RIICHI_BAD_SETTING = 19,  /* open: the header or a wall is none, or a number is outside its range */
    RIICHI_NO_SEAT = 20,      /* the seat isn't 0 to 3 */
    RIICHI_NOT_PRESENT = 21,  /* say, gone: the seat isn't present */
    RIICHI_NOT_DUE = 22,      /* say: the deed that the seat's next line answers doesn't exist yet */
    RIICHI_NO_LINE = 23,      /* line: there is no such line yet */
    RIICHI_TOO_LONG = 24,     /* sit, say: the line has more than 4,095 bytes */
    RIICHI_NO_ROOM = 25,      /* the bytes don't fit; *length says how many there are, and none is written */
    RIICHI_NO_CHOICE = 26,    /* choose: the seat has no answer of that number */
    /* turn, choose: a million looks at a seat were not enough: turn has to be called again. */
    RIICHI_GO_ON = 27,
    /* every call: a pointer is NULL; the library isn't called. */
    RIICHI_NULL = 28,
    /* sit: why no seat is given. */
    RIICHI_FULL = 32,         /* all four seats are held by others */
    RIICHI_NAME_TAKEN = 33,   /* a present seat has the name */
    RIICHI_WRONG_KEY = 34,    /* a gone seat has the name, and another key */
    RIICHI_NO_KEY = 35,       /* a gone seat has the name, and was taken without a key */
    RIICHI_TOO_OFTEN = 36,    /* the seat was taken back 64 times already */
    RIICHI_OVER = 37,         /* the game has ended */
    RIICHI_BAD_NAME = 38,     /* the line is no join with a name and a key of the right form */
    RIICHI_NO_TABLE = 39      /* no table has the room that the line names (not answered here, where there is one table) */
};

/* A table. */
typedef struct riichi_table {
    bool is_open;
    struct { uint8_t *at; } held;
} riichi_table;

#define RIICHI_TABLE_EMPTY { false, { NULL } }

/* What stands on a table. */
typedef struct riichi_state {
    uint32_t deeds;   /* the number of deeds */
    uint32_t window;  /* the number of the open window; where none is open, UINT32_MAX */
    uint64_t entries; /* the number of entries: what was said, and who came, went or ran out of time */
    bool is_over;     /* whether the game has ended */
} riichi_state;

/* What stands at a seat. */
typedef struct riichi_seat {
    uint32_t due;    /* the number of the deed that its next line answers */
    int32_t points;  /* its points */
    bool is_present;
    bool may_say;    /* it is present, and its due deed exists */
} riichi_seat;

/* Whose turn it is. */
typedef struct riichi_turn {
    uint32_t seat;   /* the first seat that may say a line; 4 where none may */
    uint32_t deeds;  /* the number of deeds */
    bool is_over;    /* whether the game has ended */
} riichi_turn;

/* Runs the command of these words, each with its newline ("hand\n1m\n2m\n.."), on this input: replay, observe, referee, safe, hand or
 * selfplay, with the words of the program. The result is its exit code. *length is how many bytes it writes to standard output, and they
 * are written to `room` where they fit there; what it says on standard error goes to `told` and *told_length so, and nothing where memory
 * is wanting. The words of serve, tables and keep, words that aren't UTF-8, and a last word without its newline are answered as faulty
 * words are, by 2. */
uint32_t riichi_run(const uint8_t *words, size_t words_length, const uint8_t *input, size_t input_length,
                    uint8_t *room, size_t room_length, uint64_t *length, uint8_t *told, size_t told_room, uint64_t *told_length);

/* Puts a game on a table that has none, before its first arrival: `setting` is a line "game limit=10000 draws=1 red=1" and 1 to 200
 * lines "wall ..", each with its newline, as a record begins. DONE, IN_PLAY, BAD_SETTING or NO_MEMORY. */
uint32_t riichi_table_open(riichi_table *table, const uint8_t *setting, size_t setting_length);

/* Puts a game on a table that has none, with the walls number `first` on of a seed of 32 bytes: 1 to 200 walls, a limit of 1 to 3,600,000
 * milliseconds for a window, whether the draw reasons are in force, and whether the walls have red fives. */
uint32_t riichi_table_open_seed(riichi_table *table, const uint8_t *seed, size_t seed_length, uint64_t first, uint32_t walls,
                                uint64_t limit, bool draws, bool red);

/* Takes the game off the table and gives its memory back: DONE or NO_GAME. */
uint32_t riichi_table_close(riichi_table *table);

/* The arrivals. Each is what the line of the same name does in the input of `riichi_table referee`. */

/* Somebody wants a seat by a line {"type":"join","name":..}: DONE or BACK, and *seat says which; or why none is given. */
uint32_t riichi_table_sit(riichi_table *table, const uint8_t *line, size_t line_length, uint32_t *seat);

/* A seat says a line, without its newline, which answers the deed that is due: DONE or LATE; or REFUSED or CLOSING, and *rule is the
 * number of the rule that the answer breaks; else the seat may not say a line now. */
uint32_t riichi_table_say(riichi_table *table, uint32_t seat, const uint8_t *line, size_t line_length, uint32_t *rule);

/* A seat leaves: DONE, NO_SEAT, NOT_PRESENT, NO_GAME or NO_MEMORY. */
uint32_t riichi_table_gone(riichi_table *table, uint32_t seat);

/* The time of a window may have run out between two readings of a clock in milliseconds: DONE, STALE, EARLY, NO_GAME or NO_MEMORY. */
uint32_t riichi_table_expire(riichi_table *table, uint32_t window, uint64_t t1, uint64_t t2);

/* Answers by their numbers: only those are asked who have a choice. */

/* Each seat passes whose line lists a pass alone, until there is none, and then *turn says whose turn it is: DONE; NO_GAME, and then
 * *turn stays as it was; NO_MEMORY, and then some may have passed already; or GO_ON. */
uint32_t riichi_table_turn(riichi_table *table, riichi_turn *turn);

/* How many answers a seat may give to the newest deed; its line lists them as "possible_actions": DONE, or NO_GAME, NO_SEAT or
 * NO_MEMORY, and then *count stays as it was. */
uint32_t riichi_table_choices(riichi_table *table, uint32_t seat, uint64_t *count);

/* A seat gives answer `k` of those, 0 to *count less one; where it is taken, or comes late, the call does what riichi_table_turn does and
 * answers as that. Else it answers as riichi_table_say does, or NO_CHOICE, and *turn stays as it was. */
uint32_t riichi_table_choose(riichi_table *table, uint32_t seat, uint32_t k, uint32_t *rule, riichi_turn *turn);

/* What stands on the table: DONE or NO_GAME. */
uint32_t riichi_table_state(riichi_table *table, riichi_state *state);

/* What stands at a seat: DONE, NO_SEAT or NO_GAME. */
uint32_t riichi_table_seat(riichi_table *table, uint32_t seat, riichi_seat *into);

/* Line k of a seat, 0 to the number of deeds less one, with its newline. Lines are rendered, each once, when one is first asked for: DONE,
 * NO_ROOM, NO_LINE, NO_SEAT, NO_GAME or NO_MEMORY. */
uint32_t riichi_table_line(riichi_table *table, uint32_t seat, uint32_t k, uint8_t *room, size_t room_length, uint64_t *length);

/* What is still to be told to a seat: the line of its due deed once that exists, unless an answer to it was refused; nothing where the seat
 * isn't present. DONE, NO_ROOM, NO_SEAT, NO_GAME or NO_MEMORY. */
uint32_t riichi_table_pending(riichi_table *table, uint32_t seat, uint8_t *room, size_t room_length, uint64_t *length);

/* The record of the game so far: its header, its walls, and a line for each deed, which hides nothing. DONE, NO_ROOM, NO_GAME or
 * NO_MEMORY. */
uint32_t riichi_table_record(riichi_table *table, uint8_t *room, size_t room_length, uint64_t *length);

/* The calls above, each after a look for NULL. */

static inline uint32_t riichi_looked_run(const uint8_t *words, size_t words_length, const uint8_t *input, size_t input_length,
                                         uint8_t *room, size_t room_length, uint64_t *length, uint8_t *told, size_t told_room,
                                         uint64_t *told_length) {
    if (!words || !input || !room || !length || !told || !told_length) return RIICHI_NULL;
    return riichi_run(words, words_length, input, input_length, room, room_length, length, told, told_room, told_length);
}

static inline uint32_t riichi_looked_table_open(riichi_table *table, const uint8_t *setting, size_t setting_length) {
    if (!table || !setting) return RIICHI_NULL;
    return riichi_table_open(table, setting, setting_length);
}

static inline uint32_t riichi_looked_table_open_seed(riichi_table *table, const uint8_t *seed, size_t seed_length, uint64_t first,
                                                     uint32_t walls, uint64_t limit, bool draws, bool red) {
    if (!table || !seed) return RIICHI_NULL;
    return riichi_table_open_seed(table, seed, seed_length, first, walls, limit, draws, red);
}

static inline uint32_t riichi_looked_table_close(riichi_table *table) {
    if (!table) return RIICHI_NULL;
    return riichi_table_close(table);
}

static inline uint32_t riichi_looked_table_sit(riichi_table *table, const uint8_t *line, size_t line_length, uint32_t *seat) {
    if (!table || !line || !seat) return RIICHI_NULL;
    return riichi_table_sit(table, line, line_length, seat);
}

static inline uint32_t riichi_looked_table_say(riichi_table *table, uint32_t seat, const uint8_t *line, size_t line_length,
                                               uint32_t *rule) {
    if (!table || !line || !rule) return RIICHI_NULL;
    return riichi_table_say(table, seat, line, line_length, rule);
}

static inline uint32_t riichi_looked_table_gone(riichi_table *table, uint32_t seat) {
    if (!table) return RIICHI_NULL;
    return riichi_table_gone(table, seat);
}

static inline uint32_t riichi_looked_table_expire(riichi_table *table, uint32_t window, uint64_t t1, uint64_t t2) {
    if (!table) return RIICHI_NULL;
    return riichi_table_expire(table, window, t1, t2);
}

static inline uint32_t riichi_looked_table_turn(riichi_table *table, riichi_turn *turn) {
    if (!table || !turn) return RIICHI_NULL;
    return riichi_table_turn(table, turn);
}

static inline uint32_t riichi_looked_table_choices(riichi_table *table, uint32_t seat, uint64_t *count) {
    if (!table || !count) return RIICHI_NULL;
    return riichi_table_choices(table, seat, count);
}

static inline uint32_t riichi_looked_table_choose(riichi_table *table, uint32_t seat, uint32_t k, uint32_t *rule, riichi_turn *turn) {
    if (!table || !rule || !turn) return RIICHI_NULL;
    return riichi_table_choose(table, seat, k, rule, turn);
}

static inline uint32_t riichi_looked_table_state(riichi_table *table, riichi_state *state) {
    if (!table || !state) return RIICHI_NULL;
    return riichi_table_state(table, state);
}

static inline uint32_t riichi_looked_table_seat(riichi_table *table, uint32_t seat, riichi_seat *into) {
    if (!table || !into) return RIICHI_NULL;
    return riichi_table_seat(table, seat, into);
}

static inline uint32_t riichi_looked_table_line(riichi_table *table, uint32_t seat, uint32_t k, uint8_t *room, size_t room_length,
                                                uint64_t *length) {
    if (!table || !room || !length) return RIICHI_NULL;
    return riichi_table_line(table, seat, k, room, room_length, length);
}

static inline uint32_t riichi_looked_table_pending(riichi_table *table, uint32_t seat, uint8_t *room, size_t room_length,
                                                   uint64_t *length) {
    if (!table || !room || !length) return RIICHI_NULL;
    return riichi_table_pending(table, seat, room, room_length, length);
}

static inline uint32_t riichi_looked_table_record(riichi_table *table, uint8_t *room, size_t room_length, uint64_t *length) {
    if (!table || !room || !length) return RIICHI_NULL;
    return riichi_table_record(table, room, room_length, length);
}

#define riichi_run(words, words_length, input, input_length, room, room_length, length, told, told_room, told_length) \
    riichi_looked_run(words, words_length, input, input_length, room, room_length, length, told, told_room, told_length)
#define riichi_table_open(table, setting, setting_length) riichi_looked_table_open(table, setting, setting_length)
#define riichi_table_open_seed(table, seed, seed_length, first, walls, limit, draws, red) \
    riichi_looked_table_open_seed(table, seed, seed_length, first, walls, limit, draws, red)
#define riichi_table_close(table) riichi_looked_table_close(table)
#define riichi_table_sit(table, line, line_length, seat) riichi_looked_table_sit(table, line, line_length, seat)
#define riichi_table_say(table, seat, line, line_length, rule) riichi_looked_table_say(table, seat, line, line_length, rule)
#define riichi_table_gone(table, seat) riichi_looked_table_gone(table, seat)
#define riichi_table_expire(table, window, t1, t2) riichi_looked_table_expire(table, window, t1, t2)
#define riichi_table_turn(table, turn) riichi_looked_table_turn(table, turn)
#define riichi_table_choices(table, seat, count) riichi_looked_table_choices(table, seat, count)
#define riichi_table_choose(table, seat, k, rule, turn) riichi_looked_table_choose(table, seat, k, rule, turn)
#define riichi_table_state(table, state) riichi_looked_table_state(table, state)
#define riichi_table_seat(table, seat, into) riichi_looked_table_seat(table, seat, into)
#define riichi_table_line(table, seat, k, room, room_length, length) riichi_looked_table_line(table, seat, k, room, room_length, length)
#define riichi_table_pending(table, seat, room, room_length, length) riichi_looked_table_pending(table, seat, room, room_length, length)
#define riichi_table_record(table, room, room_length, length) riichi_looked_table_record(table, room, room_length, length)

#ifdef __cplusplus
}
#endif

#endif
