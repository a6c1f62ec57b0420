/* Prints the table that hangs beside the cabinets: each hoard with its coins. One server settles
 * nine commands in a room of one drive; the list is made of its catalogue. A coin that was moved
 * stands in its new hoard alone, and one that was struck stands nowhere. */
#include "printing.h"
#include "register.h"

#include <inttypes.h>
#include <stdio.h>

#define SLOTS 16

/* Piece 5 is moved from hoard 31 to hoard 9, and piece 20 is struck. */
static const uint32_t commands[] = {REGISTER_ENTER(5, 31), REGISTER_ENTER(62, 9),  REGISTER_ENTER(12, 9),
                                    REGISTER_ENTER(40, 31), REGISTER_ENTER(3, 120), REGISTER_ENTER(20, 31),
                                    REGISTER_ENTER(33, 31), REGISTER_MOVE(5, 9),    REGISTER_STRIKE(20)};
#define COMMANDS (sizeof commands / sizeof commands[0])

static uint32_t room[REGISTER_MOST_CELLS];
static size_t cells;

/* Says what was refused and why. */
static int refused(const char *what, const char *why, uint32_t refusal)
{
    printf("%s: %s (%" PRIu32 ")\n", what, why, refusal);
    return 1;
}

/* Writes the record of a step and takes the step. A field that its kind lacks is not looked at. */
static int step(const char *what, uint32_t kind, uint8_t slot, uint32_t ballot)
{
    uint8_t record[REGISTER_LONGEST_RECORD];
    uint64_t answer = register_write((uint8_t)kind, 0, slot, 0, 0, ballot, record, sizeof record);
    if (REGISTER_WORD(answer) != REGISTER_REFUSED)
        answer = register_step(room, cells, record, REGISTER_NUMBER(answer));
    if (REGISTER_WORD(answer) != REGISTER_REFUSED)
        return 0;
    return refused(what, register_message(REGISTER_NUMBER(answer)), REGISTER_NUMBER(answer));
}

/* The server puts a command into the next free slot and settles it there: it writes the one
 * drive and finishes, in two phases. */
static int settle(uint32_t command)
{
    uint64_t answer = register_ask(room, cells, 0);
    uint8_t slot = (uint8_t)REGISTER_NUMBER(answer);
    if (REGISTER_WORD(answer) != REGISTER_REFUSED)
        answer = register_put(room, cells, 0, slot, command);
    if (REGISTER_WORD(answer) == REGISTER_REFUSED)
        return refused("put", register_message(REGISTER_NUMBER(answer)), REGISTER_NUMBER(answer));
    int bad = step("recall", REGISTER_RECALL, slot, 0);
    bad |= step("rejoin", REGISTER_REJOIN, slot, 1);
    for (int phase = 1; phase <= 2; phase++) {
        bad |= step("write", REGISTER_WRITE, slot, 0);
        bad |= step("finish", REGISTER_FINISH, slot, 0);
    }
    return bad;
}

/* Prints a row for each hoard, with its pieces. The pieces of a hoard stand together. */
static void print_rows(const uint32_t *catalogue, const uint32_t *list, uint32_t entered)
{
    uint32_t hoard = 0;
    for (uint32_t i = 0; i < entered; i++) {
        if (catalogue[list[i]] != hoard) {
            hoard = catalogue[list[i]];
            printf("%s%5" PRIu32 " |", i == 0 ? "" : "\n", hoard);
        }
        printf(" %2" PRIu32, list[i]);
    }
    printf("\n");
}

/* Makes the catalogue, lists it and prints the table. */
static int print_table(void)
{
    uint32_t catalogue[REGISTER_PIECES], list[HOARD_LIST_CELLS];
    uint64_t answer = register_catalogue(room, cells, 0, catalogue, REGISTER_PIECES);
    if (REGISTER_WORD(answer) == REGISTER_REFUSED)
        return refused("catalogue", register_message(REGISTER_NUMBER(answer)), REGISTER_NUMBER(answer));
    answer = hoard_list(catalogue, REGISTER_PIECES, list, HOARD_LIST_CELLS);
    if (HOARD_LIST_WORD(answer) == HOARD_LIST_REFUSED)
        return refused("hoard list", hoard_list_message(HOARD_LIST_NUMBER(answer)), HOARD_LIST_NUMBER(answer));
    printf("Coins by hoard: %" PRIu32 " pieces\n", HOARD_LIST_NUMBER(answer));
    printf("hoard | pieces\n------+-------\n");
    print_rows(catalogue, list, HOARD_LIST_NUMBER(answer));
    return 0;
}

int main(void)
{
    static const uint32_t limits[REGISTER_CABINETS] = REGISTER_USUAL_LIMITS;
    cells = register_length(1, 1, SLOTS);
    uint32_t refusal = register_open(room, cells, 1, 1, SLOTS, limits, REGISTER_CABINETS);
    if (refusal != 0)
        return refused("open", register_message(refusal), refusal);
    int bad = 0;
    for (size_t i = 0; i < COMMANDS; i++)
        bad |= settle(commands[i]);
    return bad | print_table();
}
