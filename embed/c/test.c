/* What register.h promises, held against the library: constants, macros, messages, every
 * place of every room, the refusals of every step, and that a refused call changes nothing.
 * What is expected is worked out here from docs/SPEC.md. */
#include "test.h"

static void commands(void)
{
    CHECK(constants[0] == 66825 && constants[1] == 147260 && constants[2] == 198400);
    for (uint32_t piece = 0; piece < 64; piece++)
        for (uint32_t hoard = 0; hoard < 256; hoard++) {
            uint32_t move = REGISTER_MOVE(piece, hoard);
            CHECK(REGISTER_ENTER(piece, hoard) == 65536 + piece * 256 + hoard);
            CHECK(move == 131072 + piece * 256 + hoard);
            CHECK(REGISTER_KIND_OF(move) == 2);
            CHECK(REGISTER_PIECE_OF(move) == piece && REGISTER_HOARD_OF(move) == hoard);
        }
    /* What would run over into the kind or the piece is no command. */
    CHECK(REGISTER_ENTER(64, 1) == 0 && REGISTER_ENTER(256, 1) == 0 && REGISTER_ENTER(-1, 1) == 0);
    CHECK(REGISTER_MOVE(1, 256) == 0 && REGISTER_MOVE(1, -1) == 0 && REGISTER_STRIKE(64) == 0);
    CHECK(REGISTER_ENTER(UINT64_C(1) << 32, 1) == 0);
}

static void messages(void)
{
    for (uint32_t refusal = 1; refusal <= 19; refusal++) {
        CHECK(strlen(register_message(refusal)) > 10);
        CHECK(strcmp(register_message(refusal), "unknown refusal") != 0);
        for (uint32_t lower = 1; lower < refusal; lower++)
            CHECK(strcmp(register_message(refusal), register_message(lower)) != 0);
    }
    CHECK(strcmp(register_message(0), "unknown refusal") == 0);
    CHECK(strcmp(register_message(20), "unknown refusal") == 0);
    CHECK(strcmp(register_message(UINT32_MAX), "unknown refusal") == 0);
}

/* Every place of a room of n servers, d drives and s slots: the parts stand one after the
 * other, and what is beyond the room has no place. */
static void places(uint32_t n, uint32_t d, uint32_t s)
{
    uint32_t at = 12;
    for (uint32_t slot = 0; slot < s; slot++) {
        for (uint32_t server = 0; server < n; server++, at += REGISTER_SERVER_AGREED + 1)
            CHECK(register_server_at(n, d, s, server, slot) == at);
        for (uint32_t drive = 0; drive < d; drive++)
            for (uint32_t server = 0; server < n; server++, at += REGISTER_BLOCK_DONE + 1)
                CHECK(register_block_at(n, d, s, server, slot, drive) == at);
    }
    CHECK(register_length(n, d, s) == at && at <= REGISTER_MOST_CELLS);
    CHECK(register_server_at(n, d, s, n, 0) == 0 && register_server_at(n, d, s, 0, s) == 0);
    CHECK(register_block_at(n, d, s, n, 0, 0) == 0 && register_block_at(n, d, s, 0, s, 0) == 0);
    CHECK(register_block_at(n, d, s, 0, 0, d) == 0);
    for (size_t i = 0; i < BEYOND; i++) {
        uint32_t x = beyond[i];
        CHECK(register_server_at(n, d, s, x, 0) == 0 && register_block_at(n, d, s, x, 0, 0) == 0);
        CHECK(x < s || (register_server_at(n, d, s, 0, x) == 0 && register_block_at(n, d, s, 0, x, 0) == 0));
        CHECK(x < d || register_block_at(n, d, s, 0, 0, x) == 0);
    }
}

static void sizes(void)
{
    for (uint32_t n = 1; n <= 4; n++)
        for (uint32_t d = 1; d <= 7; d++)
            for (uint32_t s = 1; s <= 16; s++)
                places(n, d, s);
    CHECK(register_length(1, 1, 1) == 27 && register_length(4, 7, 16) == 2508);
    CHECK(REGISTER_MOST_CELLS == 2508);
    for (uint32_t n = 0; n <= 5; n++)
        for (uint32_t d = 0; d <= 8; d++)
            for (uint32_t s = 0; s <= 17; s++)
                if (n == 0 || n == 5 || d == 0 || d == 8 || s == 0 || s == 17) {
                    CHECK(register_length(n, d, s) == 0);
                    CHECK(register_server_at(n, d, s, 0, 0) == 0);
                    CHECK(register_block_at(n, d, s, 0, 0, 0) == 0);
                }
}

/* A room of two servers, one drive and one slot: 42 cells. */
static uint32_t room[42];

static uint64_t step(uint32_t kind, uint8_t server, uint8_t other, uint32_t number)
{
    uint8_t record[REGISTER_LONGEST_RECORD];
    uint64_t used = register_write((uint8_t)kind, server, 0, 0, other, number, record, sizeof record);
    CHECK(REGISTER_WORD(used) == REGISTER_DONE);
    return register_step(room, 42, record, REGISTER_NUMBER(used));
}

static void done(uint32_t kind, uint8_t server, uint8_t other, uint32_t number)
{
    CHECK(step(kind, server, other, number) == 0);
}

/* The step is refused with this number, and every cell stays. */
static void refused(uint32_t refusal, uint32_t kind, uint8_t server, uint8_t other, uint32_t number)
{
    uint32_t before[42];
    memcpy(before, room, sizeof room);
    uint64_t answer = step(kind, server, other, number);
    CHECK(REGISTER_WORD(answer) == REGISTER_REFUSED && REGISTER_NUMBER(answer) == refusal);
    CHECK(memcmp(before, room, sizeof room) == 0);
}

static void steps(void)
{
    CHECK(open_usual(room, 42, 2, 1, 1) == 0);
    refused(REGISTER_E_BEYOND, REGISTER_OFFER, 2, 0, constants[0]);
    refused(REGISTER_E_NOT_A_COMMAND, REGISTER_OFFER, 0, 0, REGISTER_ENTER(63, 61));
    refused(REGISTER_E_NOT_ITS_BALLOT, REGISTER_REJOIN, 0, 0, 2);
    refused(REGISTER_E_WRONG_PHASE, REGISTER_WRITE, 0, 0, 0);
    refused(REGISTER_E_NO_MAJORITY, REGISTER_REJOIN, 0, 0, 1);
    done(REGISTER_RECALL, 0, 0, 0);
    done(REGISTER_REJOIN, 0, 0, 1);
    refused(REGISTER_E_NOT_WRITTEN, REGISTER_READ, 0, 1, 0);
    refused(REGISTER_E_NOT_ABOVE, REGISTER_BID, 0, 0, 1);
    done(REGISTER_DRIVE_OFF, 0, 0, 0);
    CHECK(room[REGISTER_OFF_MARKS] == 1);
    refused(REGISTER_E_DRIVE_OFF, REGISTER_WRITE, 0, 0, 0);
    done(REGISTER_DRIVE_ON, 0, 0, 0);
    done(REGISTER_WRITE, 0, 0, 0);
    done(REGISTER_READ, 0, 1, 0);
    refused(REGISTER_E_NOTHING_OFFERED, REGISTER_FINISH, 0, 0, 0);
    /* Server 1 has the last ballot, and server 0 none above it. */
    done(REGISTER_RECALL, 1, 0, 0);
    done(REGISTER_REJOIN, 1, 0, 1000000);
    done(REGISTER_WRITE, 1, 0, 0);
    done(REGISTER_BID, 0, 0, 3);
    done(REGISTER_WRITE, 0, 0, 0);
    refused(REGISTER_E_NO_BALLOT_LEFT, REGISTER_READ, 0, 1, 0);
    uint32_t at = register_server_at(2, 1, 1, 0, 0);
    CHECK(room[at + REGISTER_SERVER_PHASE] == 1 && room[at + REGISTER_SERVER_MBAL] == 3);
    CHECK(room[at + REGISTER_SERVER_WRITTEN] == 1 && room[at + REGISTER_SERVER_READ] == 0);
    at = register_block_at(2, 1, 1, 1, 0, 0);
    CHECK(room[at + REGISTER_BLOCK_MBAL] == 1000000 && room[at + REGISTER_BLOCK_INP] == 0);
}

/* A step of the one server of a shelf of two drives: 31 cells. */
static uint64_t on_shelf(uint32_t *shelf, uint32_t kind, uint8_t drive, uint32_t number)
{
    uint8_t record[REGISTER_LONGEST_RECORD];
    uint64_t used = register_write((uint8_t)kind, 0, 0, drive, 0, number, record, sizeof record);
    return register_step(shelf, 31, record, REGISTER_NUMBER(used));
}

/* Of two drives, drive 0 alone is enough for Rejoin and Finish, and drive 1 alone is not. */
static void two_drives(void)
{
    const uint64_t refused_10 = refused_with(REGISTER_E_NO_MAJORITY);
    uint32_t shelf[31];
    CHECK(open_usual(shelf, 31, 1, 2, 1) == 0);
    CHECK(on_shelf(shelf, REGISTER_OFFER, 0, constants[0]) == 0);
    CHECK(on_shelf(shelf, REGISTER_RECALL, 1, 0) == 0);
    CHECK(on_shelf(shelf, REGISTER_REJOIN, 0, 1) == refused_10);
    CHECK(on_shelf(shelf, REGISTER_FAIL, 0, 0) == 0);
    CHECK(on_shelf(shelf, REGISTER_OFFER, 0, constants[0]) == 0);
    CHECK(on_shelf(shelf, REGISTER_DRIVE_OFF, 1, 0) == 0);
    CHECK(on_shelf(shelf, REGISTER_RECALL, 0, 0) == 0);
    CHECK(on_shelf(shelf, REGISTER_REJOIN, 0, 1) == 0);
    CHECK(on_shelf(shelf, REGISTER_WRITE, 0, 0) == 0);
    CHECK(REGISTER_WORD(on_shelf(shelf, REGISTER_FINISH, 0, 0)) == REGISTER_CHOSEN);
    CHECK(on_shelf(shelf, REGISTER_DRIVE_ON, 1, 0) == 0);
    CHECK(on_shelf(shelf, REGISTER_WRITE, 1, 0) == 0);
    CHECK(on_shelf(shelf, REGISTER_FINISH, 0, 0) == refused_10);
    CHECK(on_shelf(shelf, REGISTER_WRITE, 0, 0) == 0);
    CHECK(REGISTER_WORD(on_shelf(shelf, REGISTER_FINISH, 0, 0)) == REGISTER_COMMITTED);
}

/* Rows and lengths that are wrong. */
static void rows(void)
{
    uint32_t row[43], before[43], out[65], old[65];
    memset(row, 7, sizeof row);
    memcpy(before, row, sizeof row);
    CHECK(open_usual(row, 42, 0, 1, 1) == REGISTER_E_SIZES && open_usual(row, 42, 2, 8, 1) == REGISTER_E_SIZES);
    CHECK(open_usual(row, 43, 2, 1, 1) == REGISTER_E_LENGTH && open_usual(row, 0, 2, 1, 1) == REGISTER_E_LENGTH);
    static const uint8_t fail[] = {0x00, 0x08};
    for (size_t cells = 0; cells <= 43; cells++) {
        uint64_t answer = register_step(row, cells, fail, sizeof fail);
        CHECK(REGISTER_WORD(answer) == REGISTER_REFUSED && REGISTER_NUMBER(answer) == REGISTER_E_CELLS);
    }
    CHECK(memcmp(before, row, sizeof row) == 0);
    memset(out, 9, sizeof out);
    memcpy(old, out, sizeof out);
    CHECK(REGISTER_NUMBER(register_catalogue(room, 42, 0, out, 65)) == REGISTER_E_LENGTH);
    CHECK(REGISTER_NUMBER(register_catalogue(row, 42, 0, out, 64)) == REGISTER_E_CELLS);
    CHECK(REGISTER_NUMBER(register_catalogue(room, 42, 2, out, 64)) == REGISTER_E_BEYOND);
    CHECK(memcmp(out, old, sizeof out) == 0);
    CHECK(register_catalogue(room, 42, 0, out, REGISTER_PIECES) == 0 && out[0] == 0 && out[64] == old[64]);
}

/* A strike; then an enter, a move and a strike of the same number. */
static void struck(void)
{
    uint32_t row[87], out[REGISTER_PIECES];
    for (uint32_t cell = 0; cell <= 512; cell++)
        CHECK(REGISTER_ENTERED(cell) == (cell >= 1 && cell <= 255));
    CHECK(REGISTER_STRUCK == 256 && !REGISTER_ENTERED(UINT32_MAX) && !REGISTER_ENTERED(-1));
    CHECK(open_usual(row, 87, 1, 1, 5) == 0);
    settle(row, 87, 0, REGISTER_ENTER(5, 9));
    CHECK(register_catalogue(row, 87, 0, out, REGISTER_PIECES) == 1 * 256 && out[5] == 9);
    settle(row, 87, 1, REGISTER_STRIKE(5));
    CHECK(register_catalogue(row, 87, 0, out, REGISTER_PIECES) == 2 * 256 && out[5] == REGISTER_STRUCK);
    settle(row, 87, 2, REGISTER_ENTER(5, 9));
    settle(row, 87, 3, REGISTER_MOVE(5, 12));
    settle(row, 87, 4, REGISTER_STRIKE(5));
    CHECK(register_catalogue(row, 87, 0, out, REGISTER_PIECES) == 5 * 256 + 3);
    for (uint32_t piece = 0; piece < REGISTER_PIECES; piece++)
        CHECK(out[piece] == (piece == 5 ? REGISTER_STRUCK : 0));
}

/* The fields that each kind has: 1 server, 2 slot, 4 drive, 8 other, 16 number. */
static const uint8_t masks[] = {0, 19, 7, 19, 19, 7, 15, 3, 1, 4, 4};

/* A record of a kind, written with every field and read again. */
static void fields_of(uint8_t kind)
{
    uint8_t record[REGISTER_LONGEST_RECORD];
    uint32_t found[7] = {99, 99, 99, 99, 99, 99, 99};
    uint64_t used = register_write(kind, 11, 12, 13, 14, 0x04030201, record, sizeof record);
    CHECK(REGISTER_WORD(used) == REGISTER_DONE && record[0] == masks[kind] && record[1] == kind);
    CHECK(register_read(record, REGISTER_NUMBER(used)) == used);
    /* Wrong counts first, then a record that is cut short. */
    for (size_t count = 0; count <= 7; count++)
        for (size_t length = 0; length < used; length++) {
            uint64_t answer = register_fields(record, length, found, count);
            CHECK(REGISTER_WORD(answer) == REGISTER_REFUSED);
            CHECK(REGISTER_NUMBER(answer) == (count == REGISTER_FIELDS ? REGISTER_E_CUT_SHORT : REGISTER_E_LENGTH));
        }
    CHECK(REGISTER_NUMBER(register_fields((const uint8_t *)"\x20", 1, found, 6)) == REGISTER_E_MALFORMED);
    for (size_t i = 0; i < 7; i++)
        CHECK(found[i] == 99);
    static const uint32_t written[] = {11, 12, 13, 14, 0x04030201};
    CHECK(register_fields(record, REGISTER_NUMBER(used), found, REGISTER_FIELDS) == used);
    CHECK(found[0] == kind && found[6] == 99);
    for (uint32_t field = 0; field < 5; field++)
        CHECK(found[1 + field] == ((masks[kind] >> field & 1) ? written[field] : 0));
}

static void records(void)
{
    uint8_t record[REGISTER_LONGEST_RECORD] = {7, 7, 7, 7, 7, 7, 7, 7};
    for (uint8_t kind = 1; kind <= 10; kind++)
        fields_of(kind);
    CHECK(REGISTER_NUMBER(register_write(0, 1, 1, 1, 1, 1, record, 8)) == REGISTER_E_MALFORMED);
    CHECK(REGISTER_NUMBER(register_write(11, 1, 1, 1, 1, 1, record, 0)) == REGISTER_E_MALFORMED);
    CHECK(REGISTER_NUMBER(register_write(7, 1, 1, 1, 1, 1, record, 3)) == REGISTER_E_LENGTH);
    for (size_t i = 0; i < sizeof record; i++)
        CHECK(record[i] == 7);
}

int main(void)
{
    commands();
    messages();
    sizes();
    steps();
    two_drives();
    rows();
    struck();
    records();
    return failed();
}
