/* What the tests of register_next have in common: a room, the server that acts in it, and what
 * its next step is compared with. */
#ifndef TEST_NEXT_H
#define TEST_NEXT_H

#include "test.h"

/* The longest buffer that is lent, and a byte that no record here has. */
#define LONGEST 16
#define OLD 0xa5

/* The slot in which a server acts. */
#define SLOT 1

/* A room that is opened for each test, and the server that acts, server 0 unless it says so. */
static uint32_t room[REGISTER_MOST_CELLS];
static size_t cells;
static uint32_t servers, drives;
static uint8_t acting;

/* Opens a room of two slots in which these drives are off. */
static inline void opened(uint32_t of_servers, uint32_t of_drives, uint32_t off)
{
    acting = 0;
    servers = of_servers;
    drives = of_drives;
    cells = register_length(servers, drives, 2);
    CHECK(open_usual(room, cells, servers, drives, 2) == 0);
    room[REGISTER_OFF_MARKS] = off;
}

/* A cell of the server's record, and of a block. */
static inline uint32_t *own(uint32_t cell)
{
    return &room[register_server_at(servers, drives, 2, acting, SLOT) + cell];
}

static inline uint32_t *block(uint32_t server, uint32_t drive, uint32_t cell)
{
    return &room[register_block_at(servers, drives, 2, server, SLOT, drive) + cell];
}

/* Calls with a buffer of this length: the answer and the bytes are these, bytes beyond the
 * record are the old ones, and every cell stays. */
static inline void calls(uint64_t answer, uint32_t server, uint32_t slot, const uint8_t *record, size_t length)
{
    static uint32_t before[REGISTER_MOST_CELLS];
    uint8_t bytes[LONGEST], wanted[LONGEST];
    memset(bytes, OLD, LONGEST);
    memset(wanted, OLD, LONGEST);
    if (REGISTER_WORD(answer) == REGISTER_DONE)
        memcpy(wanted, record, REGISTER_NUMBER(answer));
    memcpy(before, room, sizeof room);
    CHECK(register_next(room, cells, server, slot, bytes, length) == answer);
    CHECK(memcmp(bytes, wanted, LONGEST) == 0);
    CHECK(memcmp(before, room, sizeof room) == 0);
}

/* It answers so whatever the length is. */
static inline void answers(uint64_t answer, uint32_t server, uint32_t slot)
{
    static const uint8_t nothing[1] = {0};
    for (size_t length = 0; length <= LONGEST; length++)
        calls(answer, server, slot, nothing, length);
}

/* The next step is this one, which is refused only where its record does not fit. The record is
 * written to `record`; its length. */
static inline uint32_t next_is(uint32_t kind, uint8_t drive, uint8_t other, uint32_t number, uint8_t *record)
{
    uint64_t used = register_write((uint8_t)kind, acting, SLOT, drive, other, number, record,
                                   REGISTER_LONGEST_RECORD);
    for (size_t length = 0; length <= LONGEST; length++)
        calls(length < used ? refused_with(REGISTER_E_LENGTH) : used, acting, SLOT, record, length);
    return REGISTER_NUMBER(used);
}

#endif
