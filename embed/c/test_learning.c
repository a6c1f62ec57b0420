/* What is told by done and learned by a Read, cell by cell. What is expected is worked out here
 * from docs/SPEC.md. */
#include "test.h"

/* A room of two servers, one drive and one slot: 42 cells. */
static uint32_t room[42];

static uint64_t step(uint32_t kind, uint8_t server, uint32_t number)
{
    uint8_t record[REGISTER_LONGEST_RECORD];
    uint8_t other = server == 0 ? 1 : 0;
    uint64_t used = register_write((uint8_t)kind, server, 0, 0, other, number, record, sizeof record);
    return register_step(room, 42, record, REGISTER_NUMBER(used));
}

static void done(uint32_t kind, uint8_t server, uint32_t number)
{
    CHECK(step(kind, server, number) == 0);
}

/* The step commits the coin. */
static void commits(uint32_t kind, uint8_t server)
{
    CHECK(step(kind, server, 0) == ((uint64_t)REGISTER_COMMITTED << 32) + constants[0]);
}

/* The step is refused with this number, and every cell stays. */
static void refused(uint32_t refusal, uint32_t kind, uint8_t server, uint32_t number)
{
    uint32_t before[42];
    memcpy(before, room, sizeof room);
    CHECK(step(kind, server, number) == refused_with(refusal));
    CHECK(memcmp(before, room, sizeof room) == 0);
}

/* A cell of a server's record, and of its block. */
static uint32_t server_cell(uint32_t server, uint32_t cell)
{
    return room[register_server_at(2, 1, 1, server, 0) + cell];
}

static uint32_t block_cell(uint32_t server, uint32_t cell)
{
    return room[register_block_at(2, 1, 1, server, 0, 0) + cell];
}

/* The commands that the server's catalogue has taken; piece 5 is in hoard 9 if it is one. */
static void shows(uint32_t server, uint32_t taken)
{
    uint32_t out[REGISTER_PIECES];
    CHECK(register_catalogue(room, 42, server, out, REGISTER_PIECES) == taken * 256);
    CHECK(out[5] == (taken == 1 ? 9 : 0));
}

/* A server recalls the drive, rejoins with its ballot and writes the drive. */
static void begin(uint8_t server, uint32_t ballot)
{
    done(REGISTER_RECALL, server, 0);
    done(REGISTER_REJOIN, server, ballot);
    done(REGISTER_WRITE, server, 0);
}

/* Server 0 settles the coin with ballot 3. */
static void settled(void)
{
    CHECK(open_usual(room, 42, 2, 1, 1) == 0);
    done(REGISTER_OFFER, 0, constants[0]);
    begin(0, 3);
    done(REGISTER_READ, 0, 0);
    CHECK(REGISTER_WORD(step(REGISTER_FINISH, 0, 0)) == REGISTER_CHOSEN);
    done(REGISTER_WRITE, 0, 0);
    done(REGISTER_READ, 0, 0);
    CHECK(server_cell(0, REGISTER_SERVER_AGREED) == 0);
    commits(REGISTER_FINISH, 0);
    CHECK(server_cell(0, REGISTER_SERVER_AGREED) == constants[0]);
    CHECK(block_cell(0, REGISTER_BLOCK_DONE) == 0);
}

/* Server 0 tells what is settled; server 1, which comes late with a lower ballot, learns it. */
static void late(void)
{
    settled();
    begin(1, 2);
    done(REGISTER_WRITE, 0, 0);
    CHECK(block_cell(0, REGISTER_BLOCK_DONE) == constants[0]);
    CHECK(server_cell(0, REGISTER_SERVER_WRITTEN) == 1);
    shows(1, 0);
    commits(REGISTER_READ, 1);
    CHECK(server_cell(1, REGISTER_SERVER_PHASE) == 3 && server_cell(1, REGISTER_SERVER_MBAL) == 2);
    CHECK(server_cell(1, REGISTER_SERVER_INP) == 0 && server_cell(1, REGISTER_SERVER_AGREED) == constants[0]);
    CHECK(server_cell(1, REGISTER_SERVER_WRITTEN) == 0 && server_cell(1, REGISTER_SERVER_READ) == 0);
    shows(1, 1);
    refused(REGISTER_E_WRONG_PHASE, REGISTER_READ, 1, 0);
    refused(REGISTER_E_WRONG_PHASE, REGISTER_BID, 1, 4);
    refused(REGISTER_E_WRONG_PHASE, REGISTER_FINISH, 1, 0);
}

/* Server 0 fails. What it told itself is not learned; what server 1 tells is. */
static void failure(void)
{
    late();
    CHECK(block_cell(1, REGISTER_BLOCK_DONE) == 0);
    done(REGISTER_WRITE, 1, 0);
    CHECK(block_cell(1, REGISTER_BLOCK_DONE) == constants[0]);
    done(REGISTER_FAIL, 0, 0);
    CHECK(server_cell(0, REGISTER_SERVER_AGREED) == 0);
    begin(0, 5);
    CHECK(server_cell(0, REGISTER_SERVER_AGREED) == 0 && block_cell(0, REGISTER_BLOCK_DONE) == 0);
    shows(0, 0);
    commits(REGISTER_READ, 0);
    shows(0, 1);
}

/* Done is looked at before the ballots; a cell that is no command is out of range. */
static void cells(void)
{
    CHECK(open_usual(room, 42, 2, 1, 1) == 0);
    begin(0, 3);
    uint32_t block = register_block_at(2, 1, 1, 1, 0, 0);
    room[block + REGISTER_BLOCK_MBAL] = 1000000;
    refused(REGISTER_E_NO_BALLOT_LEFT, REGISTER_READ, 0, 0);
    room[block + REGISTER_BLOCK_DONE] = REGISTER_ENTER(63, 61);
    refused(REGISTER_E_CELLS, REGISTER_READ, 0, 0);
    room[block + REGISTER_BLOCK_DONE] = constants[0];
    uint32_t agreed = register_server_at(2, 1, 1, 1, 0) + REGISTER_SERVER_AGREED;
    room[agreed] = 1;
    refused(REGISTER_E_CELLS, REGISTER_READ, 0, 0);
    room[agreed] = constants[1];
    commits(REGISTER_READ, 0);
    /* Server 1 is in phase 0, so that what it agreed on is no output. */
    shows(1, 0);
}

int main(void)
{
    failure();
    cells();
    return failed();
}
