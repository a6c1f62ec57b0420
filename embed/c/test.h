/* What the tests of register.h have in common. */
#ifndef TEST_H
#define TEST_H

#include "checks.h"
#include "register.h"

#include <inttypes.h>

/* Numbers that are no size and no place. */
static const uint32_t beyond[] = {5, 8, 17, 255, 256, 65536, UINT32_C(1) << 31, UINT32_MAX};
#define BEYOND (sizeof beyond / sizeof beyond[0])

/* Macros that make commands serve as constants too. */
static const uint32_t constants[] = {REGISTER_ENTER(5, 9), REGISTER_MOVE(63, 60), REGISTER_STRIKE(7)};

/* The usual limits, and a row opened with these: 0, or the refusal. */
static const uint32_t usual[REGISTER_CABINETS] = REGISTER_USUAL_LIMITS;

static inline uint32_t open_usual(uint32_t *row, size_t cells, uint32_t servers, uint32_t drives, uint32_t slots)
{
    return register_open(row, cells, servers, drives, slots, usual, REGISTER_CABINETS);
}

/* The answer of a call that is refused with this number. */
static inline uint64_t refused_with(uint32_t refusal)
{
    return ((uint64_t)REGISTER_REFUSED << 32) + refusal;
}

/* One server and one drive settle a command in a slot of a row. */
static inline void settle(uint32_t *row, size_t cells, uint8_t slot, uint32_t command)
{
    static const uint32_t kinds[] = {REGISTER_OFFER,  REGISTER_RECALL, REGISTER_REJOIN, REGISTER_WRITE,
                                     REGISTER_FINISH, REGISTER_WRITE,  REGISTER_FINISH};
    uint64_t answer = 0;
    for (size_t i = 0; i < sizeof kinds / sizeof kinds[0]; i++) {
        uint8_t record[REGISTER_LONGEST_RECORD];
        uint32_t number = kinds[i] == REGISTER_OFFER ? command : 1;
        uint64_t used = register_write((uint8_t)kinds[i], 0, slot, 0, 0, number, record, sizeof record);
        answer = register_step(row, cells, record, REGISTER_NUMBER(used));
    }
    CHECK(REGISTER_WORD(answer) == REGISTER_COMMITTED && REGISTER_NUMBER(answer) == command);
}

#endif
