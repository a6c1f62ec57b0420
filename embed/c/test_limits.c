/* The limits of the cabinets: what register_open accepts, and that offers and stored cells are
 * judged by the room's own limits, which no step changes. What is expected is worked out here
 * from docs/SPEC.md. */
#include "test.h"

/* A room of one server, one drive and one slot: 27 cells, of which the limits begin at 4, the
 * server's record at 12 and its block at 23. One cell more shows that no more are written. */
static uint32_t room[28];

/* Limits at both ends, and between. */
static const uint32_t own[] = {1, 255, 2, 254, 128, 7, 61, 60};

/* Numbers that are no limit; the last byte of most could be one. */
static const uint32_t no_limit[] = {0, 256, 257, 511, 65537, UINT32_C(1) << 31, UINT32_MAX};
#define NO_LIMIT (sizeof no_limit / sizeof no_limit[0])

static void opened(const uint32_t *limits)
{
    memset(room, 7, sizeof room);
    CHECK(register_open(room, 27, 1, 1, 1, limits, REGISTER_CABINETS) == 0);
}

/* Open is refused with this number, and every cell stays. */
static void not_opened(uint32_t refusal, size_t cells, uint32_t servers, const uint32_t *limits, size_t count)
{
    uint32_t before[28];
    memcpy(before, room, sizeof room);
    CHECK(register_open(room, cells, servers, 1, 1, limits, count) == refusal);
    CHECK(memcmp(before, room, sizeof room) == 0);
}

/* The limits stand after the off marks, and the rest is 0. */
static void accepted(void)
{
    static const uint32_t head[] = {1, 1, 1, 0, 1, 255, 2, 254, 128, 7, 61, 60};
    static const uint32_t least[] = {1, 1, 1, 1, 1, 1, 1, 1}, most[] = {255, 255, 255, 255, 255, 255, 255, 255};
    opened(least);
    opened(most);
    opened(usual);
    CHECK(REGISTER_LIMITS == 4 && REGISTER_CABINETS == 8);
    CHECK(usual[0] == 255 && usual[1] == 255 && usual[2] == 200 && usual[3] == 200);
    CHECK(usual[4] == 120 && usual[5] == 120 && usual[6] == 60 && usual[7] == 60);
    opened(own);
    CHECK(memcmp(head, room, sizeof head) == 0 && room[27] == 0x07070707);
    for (size_t cell = 12; cell < 27; cell++)
        CHECK(room[cell] == 0);
}

/* Sizes come before lengths, and these before the limits. */
static void refusals(void)
{
    uint32_t limits[16];
    for (size_t i = 0; i < NO_LIMIT; i++) {
        for (size_t place = 0; place < 16; place++)
            limits[place] = no_limit[i];
        for (size_t count = 0; count <= 16; count++) {
            not_opened(REGISTER_E_SIZES, 28, 5, limits, count);
            not_opened(REGISTER_E_SIZES, 27, 0, limits, count);
            not_opened(REGISTER_E_LENGTH, 28, 1, limits, count);
            not_opened(REGISTER_E_LENGTH, 26, 1, limits, count);
            not_opened(count == 8 ? REGISTER_E_LIMITS : REGISTER_E_LENGTH, 27, 1, limits, count);
        }
        for (size_t place = 0; place < REGISTER_CABINETS; place++) {
            memcpy(limits, own, sizeof own);
            limits[place] = no_limit[i];
            not_opened(REGISTER_E_LIMITS, 27, 1, limits, REGISTER_CABINETS);
        }
    }
    /* Another number of limits is refused where each is one. */
    for (size_t count = 0; count <= 16; count++) {
        for (size_t place = 0; place < 16; place++)
            limits[place] = 9;
        if (count != 8)
            not_opened(REGISTER_E_LENGTH, 27, 1, limits, count);
    }
}

/* Every call refuses a room in which a limit is none, and leaves it alone. */
static void stored(uint32_t cell, uint32_t number)
{
    static const uint8_t drive_on[] = {0x00, 0x0a};
    const uint64_t refused = refused_with(REGISTER_E_CELLS);
    uint32_t before[28], out[REGISTER_PIECES];
    opened(own);
    room[cell] = number;
    memcpy(before, room, sizeof room);
    CHECK(register_step(room, 27, drive_on, sizeof drive_on) == refused);
    CHECK(register_ask(room, 27, 0) == refused);
    CHECK(register_put(room, 27, 0, 0, REGISTER_STRIKE(0)) == refused);
    CHECK(register_catalogue(room, 27, 0, out, REGISTER_PIECES) == refused);
    CHECK(memcmp(before, room, sizeof room) == 0);
}

/* A Put in a new room with these limits; Offer says the same. */
static uint64_t put_by(const uint32_t *limits, uint32_t command)
{
    uint8_t record[REGISTER_LONGEST_RECORD];
    uint64_t used = register_write(REGISTER_OFFER, 0, 0, 0, 0, command, record, sizeof record);
    opened(limits);
    uint64_t offered = register_step(room, 27, record, REGISTER_NUMBER(used));
    opened(limits);
    uint64_t answer = register_put(room, 27, 0, 0, command);
    CHECK(offered == answer);
    CHECK(room[register_server_at(1, 1, 1, 0, 0) + REGISTER_SERVER_OFFER] == (answer == 0 ? command : 0));
    return answer;
}

/* Each piece has the hoards of its own cabinet; strikes have none. */
static void commands(const uint32_t *limits)
{
    const uint64_t refused = refused_with(REGISTER_E_NOT_A_COMMAND);
    for (uint32_t piece = 0; piece < REGISTER_PIECES; piece++) {
        for (uint32_t hoard = 0; hoard < 256; hoard++) {
            uint64_t expected = hoard >= 1 && hoard <= limits[piece / 8] ? 0 : refused;
            CHECK(put_by(limits, REGISTER_ENTER(piece, hoard)) == expected);
            CHECK(put_by(limits, REGISTER_MOVE(piece, hoard)) == expected);
        }
        CHECK(put_by(limits, REGISTER_STRIKE(piece)) == 0);
        CHECK(put_by(limits, REGISTER_STRIKE(piece) + 1) == refused);
    }
}

/* A command that is stored is judged by the limits that stand in its room. */
static void stored_commands(void)
{
    static const uint32_t cells[] = {12 + REGISTER_SERVER_INP,     12 + REGISTER_SERVER_OFFER,
                                     12 + REGISTER_SERVER_SEENINP, 12 + REGISTER_SERVER_AGREED,
                                     23 + REGISTER_BLOCK_INP,      23 + REGISTER_BLOCK_DONE};
    const uint64_t refused = refused_with(REGISTER_E_CELLS);
    for (size_t i = 0; i < sizeof cells / sizeof cells[0]; i++) {
        opened(usual);
        room[cells[i]] = REGISTER_MOVE(63, 61);
        CHECK(register_ask(room, 27, 0) == refused);
        room[cells[i]] = REGISTER_ENTER(63, 61);
        CHECK(register_ask(room, 27, 0) == refused);
        room[REGISTER_LIMITS + 7] = 61;
        CHECK(register_ask(room, 27, 0) != refused);
        for (uint32_t cabinet = 0; cabinet < 7; cabinet++)
            room[REGISTER_LIMITS + cabinet] = 1;
        CHECK(register_ask(room, 27, 0) != refused);
        room[REGISTER_LIMITS + 7] = 60;
        CHECK(register_ask(room, 27, 0) == refused);
    }
}

/* A slot is settled, the drive goes off and on, the server fails: the limits stay. */
static void kept(void)
{
    static const uint8_t others[][2] = {{0x00, 0x09}, {0x00, 0x0a}, {0x00, 0x08}};
    opened(own);
    settle(room, 27, 0, REGISTER_MOVE(63, 60));
    for (size_t i = 0; i < 3; i++)
        CHECK(register_step(room, 27, others[i], 2) == 0);
    CHECK(register_put(room, 27, 0, 0, REGISTER_ENTER(0, 1)) == 0);
    CHECK(memcmp(own, room + REGISTER_LIMITS, sizeof own) == 0 && room[27] == 0x07070707);
}

int main(void)
{
    accepted();
    refusals();
    for (uint32_t cell = REGISTER_LIMITS; cell < REGISTER_LIMITS + REGISTER_CABINETS; cell++)
        for (size_t i = 0; i < NO_LIMIT; i++)
            stored(cell, no_limit[i]);
    commands(usual);
    commands(own);
    stored_commands();
    kept();
    return failed();
}
