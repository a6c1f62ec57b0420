/* Where the next step of a server alone is refused: every set of drives, and the refusals in
 * their order. What is expected is worked out here from docs/SPEC.md. */
#include "test_next.h"

/* It is refused so whatever the length is. */
static void refused(uint32_t refusal, uint32_t server, uint32_t slot)
{
    answers(refused_with(refusal), server, slot);
}

/* More than half of the drives are a majority, and so is half with drive 0. Where the on drives
 * are one, the first of them is recalled. */
static void majority(uint32_t off)
{
    uint8_t record[REGISTER_LONGEST_RECORD], first = 0;
    uint32_t on = 0;
    room[REGISTER_OFF_MARKS] = off;
    for (uint32_t drive = 0; drive < drives; drive++)
        on += 1 - (off >> drive & 1);
    while (first < drives && (off >> first & 1) == 1)
        first++;
    if (2 * on > drives || (2 * on == drives && first == 0))
        next_is(REGISTER_RECALL, first, 0, 0, record);
    else
        refused(REGISTER_E_NO_MAJORITY_ON, acting, SLOT);
}

/* Every set of drives of every number of them. */
static void majorities(void)
{
    for (uint32_t number = 1; number <= 7; number++) {
        opened(2, number, 0);
        for (uint32_t off = 0; off < UINT32_C(1) << number; off++)
            majority(off);
    }
}

/* The refusals in the order of their checks; the length, the last, is tried with every step. */
static void refusals(void)
{
    opened(2, 4, 3);
    refused(REGISTER_E_NO_MAJORITY_ON, acting, SLOT);
    /* In phase 3 too. */
    *own(REGISTER_SERVER_PHASE) = 3;
    refused(REGISTER_E_NO_MAJORITY_ON, acting, SLOT);
    refused(REGISTER_E_BEYOND, 2, SLOT);
    refused(REGISTER_E_BEYOND, acting, 2);
    for (size_t i = 0; i < BEYOND; i++) {
        refused(REGISTER_E_BEYOND, beyond[i], SLOT);
        refused(REGISTER_E_BEYOND, acting, beyond[i]);
    }
    size_t whole = cells;
    for (cells = 0; cells < whole; cells++)
        refused(REGISTER_E_CELLS, 2, 2);
    cells = whole;
    *own(REGISTER_SERVER_OFFER) = 1;
    refused(REGISTER_E_CELLS, UINT32_MAX, UINT32_MAX);
}

int main(void)
{
    majorities();
    refusals();
    return failed();
}
