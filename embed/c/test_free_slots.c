/* Ask and Put: the slots that are free for a server, and the refusals in their order. What is
 * expected is worked out here from docs/SPEC.md. */
#include "test.h"

/* A room of one server, one drive and three slots: 57 cells. */
static uint32_t three[57];

/* Ask gives this answer, and every cell stays. */
static void asks(uint64_t expected, uint32_t server)
{
    uint32_t before[57];
    memcpy(before, three, sizeof three);
    CHECK(register_ask(three, 57, server) == expected);
    CHECK(memcmp(before, three, sizeof three) == 0);
}

/* Put is refused with this number, and every cell stays. */
static void no_put(uint32_t refusal, uint32_t server, uint32_t slot, uint32_t command)
{
    uint32_t before[57];
    memcpy(before, three, sizeof three);
    CHECK(register_put(three, 57, server, slot, command) == refused_with(refusal));
    CHECK(memcmp(before, three, sizeof three) == 0);
}

/* Put is done, and the server's offer in the slot is all that changes. */
static void put(uint32_t slot, uint32_t command)
{
    uint32_t wanted[57];
    memcpy(wanted, three, sizeof three);
    wanted[register_server_at(1, 1, 3, 0, slot) + REGISTER_SERVER_OFFER] = command;
    CHECK(register_put(three, 57, 0, slot, command) == 0);
    CHECK(memcmp(wanted, three, sizeof three) == 0);
}

/* The slots that are free: the lowest is named and can be filled once. */
static void free_slots(void)
{
    static const uint8_t fail[] = {0x00, 0x08};
    CHECK(open_usual(three, 57, 1, 1, 3) == 0);
    asks(0, 0);
    put(0, constants[0]);
    no_put(REGISTER_E_NOT_FREE, 0, 0, constants[1]);
    asks(1, 0);
    put(2, constants[1]);
    asks(1, 0);
    /* Offer is done where Put is refused. Slot 0 is settled, and not free. */
    settle(three, 57, 0, constants[2]);
    no_put(REGISTER_E_NOT_FREE, 0, 0, constants[0]);
    put(1, constants[2]);
    asks(refused_with(REGISTER_E_NO_FREE_SLOT), 0);
    /* After a failure every slot is free again, the settled one too. */
    CHECK(register_step(three, 57, fail, sizeof fail) == 0);
    asks(0, 0);
    put(0, constants[0]);
    /* Without an offer a slot is free in each phase but 3. */
    for (uint32_t phase = 0; phase <= 3; phase++) {
        CHECK(open_usual(three, 57, 1, 1, 3) == 0);
        three[register_server_at(1, 1, 3, 0, 0) + REGISTER_SERVER_PHASE] = phase;
        asks(phase == 3 ? 1 : 0, 0);
        if (phase == 3)
            no_put(REGISTER_E_NOT_FREE, 0, 0, constants[0]);
        else
            put(0, constants[0]);
    }
}

/* Ask and Put are refused in the order of their checks. */
static void no_free_slot(void)
{
    CHECK(open_usual(three, 57, 1, 1, 3) == 0);
    for (uint32_t slot = 0; slot < 3; slot++)
        put(slot, constants[0]);
    asks(refused_with(REGISTER_E_NO_FREE_SLOT), 0);
    no_put(REGISTER_E_NOT_FREE, 0, 1, constants[0]);
    no_put(REGISTER_E_NOT_A_COMMAND, 0, 1, REGISTER_ENTER(63, 61));
    no_put(REGISTER_E_BEYOND, 1, 1, 0);
    no_put(REGISTER_E_BEYOND, 0, 3, 0);
    asks(refused_with(REGISTER_E_BEYOND), 1);
    for (size_t i = 0; i < BEYOND; i++) {
        asks(refused_with(REGISTER_E_BEYOND), beyond[i]);
        no_put(REGISTER_E_BEYOND, beyond[i], 0, 0);
        no_put(REGISTER_E_BEYOND, 0, beyond[i], 0);
    }
    for (size_t cells = 0; cells < 57; cells++) {
        CHECK(register_ask(three, cells, 1) == refused_with(REGISTER_E_CELLS));
        CHECK(register_put(three, cells, 1, 3, 0) == refused_with(REGISTER_E_CELLS));
    }
    three[REGISTER_OFF_MARKS] = 2;
    asks(refused_with(REGISTER_E_CELLS), UINT32_MAX);
    no_put(REGISTER_E_CELLS, UINT32_MAX, UINT32_MAX, 0);
}

int main(void)
{
    free_slots();
    no_free_slot();
    return failed();
}
