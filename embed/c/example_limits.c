/* Two museums with different cabinets, and one whose limits are refused. Each opens its room
 * with its own: then one and the same command is accepted in one and refused in the other. */
#include "register.h"

#include <inttypes.h>
#include <stdio.h>

#define SERVERS 2
#define DRIVES 3
#define SLOTS 4

/* A museum: what it is called, the largest hoard of each cabinet, and its room. */
struct museum {
    const char *name;
    uint32_t limits[REGISTER_CABINETS];
    uint32_t room[REGISTER_MOST_CELLS];
    size_t cells;
};

static struct museum town = {"town museum", REGISTER_USUAL_LIMITS, {0}, 0};

/* A small first cabinet, and a large last one. */
static struct museum castle = {"castle", {12, 255, 200, 200, 120, 120, 60, 90}, {0}, 0};

/* A cabinet without a hoard. */
static struct museum cellar = {"cellar", {255, 255, 200, 0, 120, 120, 60, 60}, {0}, 0};

/* Says what was refused and why. */
static int refused(const struct museum *museum, const char *what, uint32_t refusal)
{
    printf("%s, %s: %s (%" PRIu32 ")\n", museum->name, what, register_message(refusal), refusal);
    return 1;
}

/* Opens the museum's room, and prints the limits that the room has kept. */
static int open_room(struct museum *museum)
{
    museum->cells = register_length(SERVERS, DRIVES, SLOTS);
    uint32_t refusal = register_open(museum->room, museum->cells, SERVERS, DRIVES, SLOTS, museum->limits,
                                     REGISTER_CABINETS);
    if (refusal != 0)
        return refused(museum, "open", refusal);
    printf("%s, open: hoards up to", museum->name);
    for (uint32_t cabinet = 0; cabinet < REGISTER_CABINETS; cabinet++)
        printf(" %" PRIu32, museum->room[REGISTER_LIMITS + cabinet]);
    printf("\n");
    return 0;
}

/* Server 0 asks for a slot and puts the command there. */
static int put(struct museum *museum, const char *what, uint32_t command)
{
    uint64_t answer = register_ask(museum->room, museum->cells, 0);
    if (REGISTER_WORD(answer) == REGISTER_REFUSED)
        return refused(museum, what, REGISTER_NUMBER(answer));
    uint32_t slot = REGISTER_NUMBER(answer);
    answer = register_put(museum->room, museum->cells, 0, slot, command);
    if (REGISTER_WORD(answer) == REGISTER_REFUSED)
        return refused(museum, what, REGISTER_NUMBER(answer));
    printf("%s, %s: put in slot %" PRIu32 "\n", museum->name, what, slot);
    return 0;
}

/* Puts one command in both rooms: one of them refuses it. */
static int only_in(struct museum *where, struct museum *other, const char *what, uint32_t command)
{
    int bad = put(where, what, command);
    return bad | !put(other, what, command);
}

int main(void)
{
    int bad = open_room(&town);
    bad |= open_room(&castle);
    bad |= !open_room(&cellar);
    bad |= only_in(&castle, &town, "piece 63 enters hoard 61", REGISTER_ENTER(63, 61));
    bad |= only_in(&town, &castle, "piece 5 enters hoard 13", REGISTER_ENTER(5, 13));
    bad |= put(&town, "piece 5 enters hoard 12", REGISTER_ENTER(5, 12));
    bad |= put(&castle, "piece 5 enters hoard 12", REGISTER_ENTER(5, 12));
    return bad;
}
