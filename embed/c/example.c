/* Enters a coin on two servers and three drives, and prints the catalogue of each: one server
 * settles it, the other learns it. */
#include "register.h"

#include <inttypes.h>
#include <stdio.h>

#define SERVERS 2
#define DRIVES 3
#define SLOTS 2

/* The coin: piece 5 enters hoard 9. */
#define COIN REGISTER_ENTER(5, 9)

static uint32_t room[REGISTER_MOST_CELLS];
static size_t cells;

/* Says what was refused and why. */
static int refused(const char *what, uint32_t refusal)
{
    printf("%s: %s (%" PRIu32 ")\n", what, register_message(refusal), refusal);
    return 1;
}

/* The lowest slot that is free for a server; SLOTS, which is beyond the room, where none is. */
static uint32_t ask(uint32_t server)
{
    uint64_t answer = register_ask(room, cells, server);
    if (REGISTER_WORD(answer) == REGISTER_REFUSED) {
        refused("ask", REGISTER_NUMBER(answer));
        return SLOTS;
    }
    printf("ask, server %" PRIu32 ": slot %" PRIu32 "\n", server, REGISTER_NUMBER(answer));
    return REGISTER_NUMBER(answer);
}

/* Offers a command in a slot that is free for the server. */
static int put(uint32_t server, uint32_t slot, uint32_t command)
{
    uint64_t answer = register_put(room, cells, server, slot, command);
    if (REGISTER_WORD(answer) == REGISTER_REFUSED)
        return refused("put", REGISTER_NUMBER(answer));
    printf("put, server %" PRIu32 ", slot %" PRIu32 ": done\n", server, slot);
    return 0;
}

/* Writes the record of a step in slot 0, takes the step, and prints its answer. */
static int step(uint32_t kind, uint8_t server, uint8_t drive, uint8_t other, uint32_t number)
{
    static const char *const kinds[] = {"no step", "offer",  "recall", "rejoin",    "bid",     "write",
                                        "read",    "finish", "fail",   "drive off", "drive on"};
    static const char *const words[] = {"done", "outbid", "chosen", "committed", "refused"};
    uint8_t record[REGISTER_LONGEST_RECORD];
    uint64_t length = register_write((uint8_t)kind, server, 0, drive, other, number, record, sizeof record);
    if (REGISTER_WORD(length) == REGISTER_REFUSED)
        return refused("no record", REGISTER_NUMBER(length));
    uint64_t answer = register_step(room, cells, record, REGISTER_NUMBER(length));
    printf("%s, server %d, drive %d: %s %" PRIu32 "\n", kinds[kind], server, drive, words[REGISTER_WORD(answer)],
           REGISTER_NUMBER(answer));
    return REGISTER_WORD(answer) == REGISTER_REFUSED ? refused(kinds[kind], REGISTER_NUMBER(answer)) : 0;
}

/* One phase: the server writes its block to two drives, a majority, reads the other
 * server's there, and finishes. */
static int phase(uint8_t server, uint8_t first)
{
    int bad = 0;
    uint8_t other = server == 0 ? 1 : 0;
    for (uint8_t drive = first; drive < first + 2; drive++) {
        bad |= step(REGISTER_WRITE, server, drive, 0, 0);
        bad |= step(REGISTER_READ, server, drive, other, 0);
    }
    return bad | step(REGISTER_FINISH, server, 0, 0, 0);
}

/* A server recalls its blocks on two drives and comes in with a ballot of its own. */
static int join(uint8_t server, uint32_t ballot, uint8_t first)
{
    int bad = 0;
    for (uint8_t drive = first; drive < first + 2; drive++)
        bad |= step(REGISTER_RECALL, server, drive, 0, 0);
    return bad | step(REGISTER_REJOIN, server, 0, 0, ballot);
}

/* A server settles the slot on two drives in two phases, and tells it there: once the slot is
 * settled, the block that it writes says what was settled. */
static int settle(uint8_t server, uint32_t ballot, uint8_t first)
{
    int bad = join(server, ballot, first);
    bad |= phase(server, first);
    bad |= phase(server, first);
    for (uint8_t drive = first; drive < first + 2; drive++)
        bad |= step(REGISTER_WRITE, server, drive, 0, 0);
    return bad;
}

/* A server that comes late learns what was settled: it writes one drive and reads the other
 * server's block there. The slot is then settled for it too, and it finishes no phase. */
static int learn(uint8_t server, uint32_t ballot, uint8_t drive)
{
    uint8_t other = server == 0 ? 1 : 0;
    int bad = join(server, ballot, drive);
    bad |= step(REGISTER_WRITE, server, drive, 0, 0);
    return bad | step(REGISTER_READ, server, drive, other, 0);
}

/* Prints the pieces that a server knows to be in a hoard. */
static int catalogue(uint32_t server)
{
    uint32_t out[REGISTER_PIECES];
    uint64_t answer = register_catalogue(room, cells, server, out, REGISTER_PIECES);
    if (REGISTER_WORD(answer) == REGISTER_REFUSED)
        return refused("catalogue", REGISTER_NUMBER(answer));
    printf("catalogue of server %" PRIu32 ": taken %" PRIu32 ", skipped %" PRIu32 "\n", server,
           REGISTER_NUMBER(answer) / 256, REGISTER_NUMBER(answer) % 256);
    for (int piece = 0; piece < REGISTER_PIECES; piece++)
        if (REGISTER_ENTERED(out[piece]))
            printf("  piece %d is in hoard %" PRIu32 "\n", piece, out[piece]);
    return 0;
}

int main(void)
{
    static const uint32_t limits[REGISTER_CABINETS] = REGISTER_USUAL_LIMITS;
    cells = register_length(SERVERS, DRIVES, SLOTS);
    uint32_t refusal = register_open(room, cells, SERVERS, DRIVES, SLOTS, limits, REGISTER_CABINETS);
    if (refusal != 0)
        return refused("open", refusal);
    printf("a room of %zu cells\n", cells);
    /* Server 0 asks for a line, is given slot 0, and puts the coin there; the next line is
     * slot 1. It settles the coin on drives 0 and 1. Then drive 0 goes off, and server 1
     * learns on drive 1 what was settled. */
    int bad = put(0, ask(0), COIN);
    bad |= ask(0) != 1;
    bad |= settle(0, 1, 0);
    bad |= step(REGISTER_DRIVE_OFF, 0, 0, 0, 0);
    bad |= learn(1, 2, 1);
    bad |= catalogue(0);
    bad |= catalogue(1);
    return bad;
}
