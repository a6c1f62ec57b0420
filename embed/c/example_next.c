/* One of two servers is awake, and two of five drives are off. The server settles three entries:
 * for each it takes the step that register_next gives until one commits. Each step is printed in
 * words, and at the end what the server knows. */
#include "register.h"

#include <inttypes.h>
#include <stdio.h>

#define SERVERS 2
#define DRIVES 5
#define SLOTS 4
#define AWAKE 0

/* Piece 5 enters hoard 9, piece 40 enters hoard 31, and piece 5 moves to hoard 12. */
static const uint32_t entries[] = {REGISTER_ENTER(5, 9), REGISTER_ENTER(40, 31), REGISTER_MOVE(5, 12)};
#define ENTRIES (sizeof entries / sizeof entries[0])

static uint32_t room[REGISTER_MOST_CELLS];
static size_t cells;

/* Says what was refused and why. */
static int refused(const char *what, uint64_t answer)
{
    uint32_t refusal = REGISTER_NUMBER(answer);
    printf("%s: %s (%" PRIu32 ")\n", what, register_message(refusal), refusal);
    return 1;
}

/* A drive goes off. */
static int switch_off(uint8_t drive)
{
    uint8_t record[REGISTER_LONGEST_RECORD];
    uint64_t used = register_write(REGISTER_DRIVE_OFF, 0, 0, drive, 0, 0, record, sizeof record);
    uint64_t answer = register_step(room, cells, record, REGISTER_NUMBER(used));
    if (REGISTER_WORD(answer) == REGISTER_REFUSED)
        return refused("drive off", answer);
    printf("drive %d is off\n", drive);
    return 0;
}

/* Prints the step of a record. */
static void print_step(const uint8_t *record, size_t length)
{
    uint32_t fields[REGISTER_FIELDS];
    (void)register_fields(record, length, fields, REGISTER_FIELDS);
    uint32_t drive = fields[3], other = fields[4], number = fields[5];
    switch (fields[0]) {
    case REGISTER_RECALL:
        printf("  recall drive %" PRIu32, drive);
        break;
    case REGISTER_REJOIN:
        printf("  rejoin with ballot %" PRIu32, number);
        break;
    case REGISTER_WRITE:
        printf("  write drive %" PRIu32, drive);
        break;
    case REGISTER_READ:
        printf("  read the block of server %" PRIu32 " on drive %" PRIu32, other, drive);
        break;
    default:
        printf("  finish");
    }
}

/* Prints what a step answered. */
static void print_answer(uint64_t answer)
{
    static const char *const words[] = {"done", "outbid by ballot", "chosen", "committed", "refused"};
    printf(": %s", words[REGISTER_WORD(answer)]);
    if (REGISTER_WORD(answer) != REGISTER_DONE)
        printf(" %" PRIu32, REGISTER_NUMBER(answer));
    printf("\n");
}

/* Takes the next step in the slot until one commits. */
static int follow(uint32_t slot)
{
    for (uint64_t answer = 0; REGISTER_WORD(answer) != REGISTER_COMMITTED;) {
        uint8_t record[REGISTER_LONGEST_RECORD];
        uint64_t used = register_next(room, cells, AWAKE, slot, record, sizeof record);
        if (REGISTER_WORD(used) == REGISTER_REFUSED)
            return refused("next", used);
        if (used == 0) {
            printf("  there is no next step\n");
            return 1;
        }
        print_step(record, REGISTER_NUMBER(used));
        answer = register_step(room, cells, record, REGISTER_NUMBER(used));
        print_answer(answer);
        if (REGISTER_WORD(answer) == REGISTER_REFUSED)
            return refused("step", answer);
    }
    return 0;
}

/* The server puts an entry into the next free slot and settles it. */
static int settle(uint32_t entry)
{
    uint64_t answer = register_ask(room, cells, AWAKE);
    if (REGISTER_WORD(answer) == REGISTER_REFUSED)
        return refused("ask", answer);
    uint32_t slot = REGISTER_NUMBER(answer);
    answer = register_put(room, cells, AWAKE, slot, entry);
    if (REGISTER_WORD(answer) == REGISTER_REFUSED)
        return refused("put", answer);
    printf("slot %" PRIu32 ": piece %" PRIu32 " %s hoard %" PRIu32 "\n", slot, REGISTER_PIECE_OF(entry),
           REGISTER_KIND_OF(entry) == 1 ? "enters" : "moves to", REGISTER_HOARD_OF(entry));
    return follow(slot);
}

/* Prints what the server knows. */
static int catalogue(void)
{
    uint32_t out[REGISTER_PIECES];
    uint64_t answer = register_catalogue(room, cells, AWAKE, out, REGISTER_PIECES);
    if (REGISTER_WORD(answer) == REGISTER_REFUSED)
        return refused("catalogue", answer);
    uint32_t counts = REGISTER_NUMBER(answer);
    printf("catalogue of server %d: taken %" PRIu32 ", skipped %" PRIu32 "\n", AWAKE, counts / 256, counts % 256);
    for (int piece = 0; piece < REGISTER_PIECES; piece++)
        if (REGISTER_ENTERED(out[piece]))
            printf("  piece %d is in hoard %" PRIu32 "\n", piece, out[piece]);
    return 0;
}

int main(void)
{
    static const uint32_t limits[REGISTER_CABINETS] = REGISTER_USUAL_LIMITS;
    cells = register_length(SERVERS, DRIVES, SLOTS);
    uint32_t refusal = register_open(room, cells, SERVERS, DRIVES, SLOTS, limits, REGISTER_CABINETS);
    if (refusal != 0)
        return refused("open", refusal);
    int bad = switch_off(1);
    bad |= switch_off(3);
    for (size_t i = 0; i < ENTRIES; i++)
        bad |= settle(entries[i]);
    return bad | catalogue();
}
