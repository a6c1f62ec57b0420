/* The next step of a server alone: which it is, where there is none, and how many are needed.
 * What is expected is worked out here from docs/SPEC.md. */
#include "test_next.h"

/* There is no next step. */
static void none(void)
{
    answers(0, acting, SLOT);
}

/* The next step is this one, and is taken. Its answer's word. */
static uint32_t gives(uint32_t kind, uint8_t drive, uint8_t other, uint32_t number)
{
    uint8_t record[REGISTER_LONGEST_RECORD];
    uint32_t used = next_is(kind, drive, other, number, record);
    return REGISTER_WORD(register_step(room, cells, record, used));
}

static void done(uint32_t kind, uint8_t drive, uint8_t other, uint32_t number)
{
    CHECK(gives(kind, drive, other, number) == REGISTER_DONE);
}

/* The server offers a command. */
static void offered(void)
{
    CHECK(register_put(room, cells, acting, SLOT, constants[0]) == 0);
}

/* One drive and one server: six steps, which is the bound. */
static void six_steps(void)
{
    opened(1, 1, 0);
    offered();
    done(REGISTER_RECALL, 0, 0, 0);
    done(REGISTER_REJOIN, 0, 0, 1);
    done(REGISTER_WRITE, 0, 0, 0);
    CHECK(gives(REGISTER_FINISH, 0, 0, 0) == REGISTER_CHOSEN);
    done(REGISTER_WRITE, 0, 0, 0);
    CHECK(gives(REGISTER_FINISH, 0, 0, 0) == REGISTER_COMMITTED);
    none();
}

/* One drive and two servers, the other with the largest ballot that the bound allows: ten
 * steps, which is the bound. */
static void ten_steps(void)
{
    opened(2, 1, 0);
    offered();
    *block(1, 0, REGISTER_BLOCK_MBAL) = 999990;
    done(REGISTER_RECALL, 0, 0, 0);
    done(REGISTER_REJOIN, 0, 0, 1);
    done(REGISTER_WRITE, 0, 0, 0);
    CHECK(gives(REGISTER_READ, 0, 1, 0) == REGISTER_OUTBID);
    CHECK(*own(REGISTER_SERVER_MBAL) == 999991);
    for (uint32_t word = REGISTER_CHOSEN; word <= REGISTER_COMMITTED; word++) {
        done(REGISTER_WRITE, 0, 0, 0);
        done(REGISTER_READ, 0, 1, 0);
        CHECK(gives(REGISTER_FINISH, 0, 0, 0) == word);
    }
    none();
}

/* Five drives, of which 0 and 3 are off: 1, 2 and 4 are used. */
static void drives_in_turn(void)
{
    static const uint8_t used[] = {1, 2, 4};
    opened(3, 5, 9);
    offered();
    for (size_t i = 0; i < 3; i++)
        done(REGISTER_RECALL, used[i], 0, 0);
    done(REGISTER_REJOIN, 0, 0, 1);
    for (uint32_t word = REGISTER_CHOSEN; word <= REGISTER_COMMITTED; word++) {
        for (size_t i = 0; i < 3; i++) {
            done(REGISTER_WRITE, used[i], 0, 0);
            done(REGISTER_READ, used[i], 1, 0);
            done(REGISTER_READ, used[i], 2, 0);
        }
        CHECK(gives(REGISTER_FINISH, 0, 0, 0) == word);
    }
    none();
}

/* Half of the drives are used where drive 0 is on, and what is told there is learned. */
static void half(void)
{
    opened(2, 4, 2);
    *block(1, 2, REGISTER_BLOCK_DONE) = constants[1];
    done(REGISTER_RECALL, 0, 0, 0);
    done(REGISTER_RECALL, 2, 0, 0);
    done(REGISTER_REJOIN, 0, 0, 1);
    done(REGISTER_WRITE, 0, 0, 0);
    done(REGISTER_READ, 0, 1, 0);
    done(REGISTER_WRITE, 2, 0, 0);
    CHECK(gives(REGISTER_READ, 2, 1, 0) == REGISTER_COMMITTED);
    none();
}

/* What is marked is passed over, a Read also where the drive was not written; other drives'
 * marks do not help. */
static void marks(void)
{
    opened(2, 3, 0);
    *own(REGISTER_SERVER_PHASE) = 1;
    *own(REGISTER_SERVER_MBAL) = 1;
    *own(REGISTER_SERVER_WRITTEN) = 6;
    *own(REGISTER_SERVER_READ) = 0x222;
    done(REGISTER_WRITE, 0, 0, 0);
    /* Nothing was seen and nothing is offered. */
    none();
    *own(REGISTER_SERVER_READ) = 0x022;
    none();
    *own(REGISTER_SERVER_READ) = 0x202;
    done(REGISTER_READ, 1, 1, 0);
    none();
    /* A command that was seen is enough. */
    *own(REGISTER_SERVER_SEENINP) = constants[1];
    CHECK(gives(REGISTER_FINISH, 0, 0, 0) == REGISTER_CHOSEN);
    /* In phase 2 none is asked for. */
    *own(REGISTER_SERVER_SEENINP) = 0;
    *own(REGISTER_SERVER_WRITTEN) = 6;
    *own(REGISTER_SERVER_READ) = 0x220;
    done(REGISTER_WRITE, 0, 0, 0);
    done(REGISTER_READ, 0, 1, 0);
    CHECK(gives(REGISTER_FINISH, 0, 0, 0) == REGISTER_COMMITTED);
}

/* The last of two servers: its own marks count where it recalls, and its ballots are its own.
 * In phase 0 top alone is looked at, whatever the own block holds. */
static void the_last_server(void)
{
    opened(2, 3, 0);
    acting = 1;
    offered();
    *own(REGISTER_SERVER_READ) = 0x012;
    *own(REGISTER_SERVER_MBAL) = 999999;
    *own(REGISTER_SERVER_TOP) = 6;
    done(REGISTER_RECALL, 1, 0, 0);
    done(REGISTER_REJOIN, 0, 0, 8);
    done(REGISTER_WRITE, 0, 0, 0);
    done(REGISTER_READ, 0, 0, 0);
    done(REGISTER_WRITE, 1, 0, 0);
    done(REGISTER_READ, 1, 0, 0);
    CHECK(gives(REGISTER_FINISH, 0, 0, 0) == REGISTER_CHOSEN);
}

/* No ballot is left: neither for a Rejoin nor for a Read that would be outbid. */
static void no_ballot(void)
{
    opened(2, 1, 0);
    offered();
    *block(0, 0, REGISTER_BLOCK_MBAL) = 999999;
    done(REGISTER_RECALL, 0, 0, 0);
    none();
    *own(REGISTER_SERVER_TOP) = 999998;
    done(REGISTER_REJOIN, 0, 0, 999999);
    done(REGISTER_WRITE, 0, 0, 0);
    *block(1, 0, REGISTER_BLOCK_MBAL) = 999999;
    none();
    *block(1, 0, REGISTER_BLOCK_MBAL) = 1000000;
    none();
    *block(1, 0, REGISTER_BLOCK_DONE) = constants[2];
    CHECK(gives(REGISTER_READ, 0, 1, 0) == REGISTER_COMMITTED);
    /* The largest ballot of all can be had. */
    opened(1, 1, 0);
    *own(REGISTER_SERVER_READ) = 1;
    *own(REGISTER_SERVER_TOP) = 999999;
    done(REGISTER_REJOIN, 0, 0, 1000000);
}

int main(void)
{
    six_steps();
    ten_steps();
    drives_in_turn();
    half();
    marks();
    the_last_server();
    no_ballot();
    return failed();
}
