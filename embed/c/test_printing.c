/* What printing.h promises, held against the library: the order, what stands after the last
 * piece, the refusals in their order, and that a refused call changes nothing. The library is
 * linked alone. What is expected is worked out here from the header's own sentences. */
#include "printing.h"

#include "checks.h"

/* One cell more than a catalogue or a list has; the cell beyond the list shows that no more
 * are written. */
#define MORE (HOARD_LIST_CELLS + 1)
#define UNTOUCHED 0x07070707u

static uint32_t catalogue[MORE], list[MORE];

/* Macros and constants serve where the compiler wants constants. */
static const uint32_t constants[] = {HOARD_LIST_CELLS,    HOARD_LIST_NO_PIECE, HOARD_LIST_DONE,
                                     HOARD_LIST_REFUSED,  HOARD_LIST_E_LENGTH, HOARD_LIST_E_CELLS,
                                     HOARD_LIST_WORD((UINT64_C(4) << 32) + 3),
                                     HOARD_LIST_NUMBER((UINT64_C(4) << 32) + 3)};

static void constants_and_messages(void)
{
    static const uint32_t expected[] = {64, 64, 0, 4, 2, 3, 4, 3};
    static const uint32_t unknown[] = {0, 1, 4, 18, UINT32_MAX};
    CHECK(memcmp(constants, expected, sizeof expected) == 0);
    CHECK(strlen(hoard_list_message(2)) > 10 && strlen(hoard_list_message(3)) > 10);
    CHECK(strcmp(hoard_list_message(2), hoard_list_message(3)) != 0);
    for (size_t i = 0; i < sizeof unknown / sizeof unknown[0]; i++)
        CHECK(strcmp(hoard_list_message(unknown[i]), "unknown refusal") == 0);
}

/* Every cell of the catalogue is this number. */
static void fill(uint32_t cell)
{
    for (size_t piece = 0; piece < MORE; piece++)
        catalogue[piece] = cell;
}

/* The catalogue is listed as the header says, hoard by hoard; its own cells stay. */
static void listed(uint32_t entered)
{
    uint32_t before[MORE], wanted[MORE];
    uint32_t count = 0;
    for (uint32_t hoard = 1; hoard <= 255; hoard++)
        for (uint32_t piece = 0; piece < 64; piece++)
            if (catalogue[piece] == hoard)
                wanted[count++] = piece;
    CHECK(count == entered);
    while (count < 64)
        wanted[count++] = 64;
    wanted[64] = UNTOUCHED;
    memcpy(before, catalogue, sizeof catalogue);
    memset(list, 7, sizeof list);
    CHECK(hoard_list(catalogue, 64, list, 64) == entered);
    CHECK(memcmp(list, wanted, sizeof list) == 0);
    CHECK(memcmp(before, catalogue, sizeof catalogue) == 0);
}

/* The call is refused with this number, and every cell of both rows stays. */
static void refused(uint32_t refusal, size_t cells, size_t length)
{
    uint32_t before[MORE], old[MORE];
    memcpy(before, catalogue, sizeof catalogue);
    memset(list, 7, sizeof list);
    memcpy(old, list, sizeof list);
    uint64_t answer = hoard_list(catalogue, cells, list, length);
    CHECK(HOARD_LIST_WORD(answer) == HOARD_LIST_REFUSED && HOARD_LIST_NUMBER(answer) == refusal);
    CHECK(answer == (UINT64_C(4) << 32) + refusal);
    CHECK(memcmp(old, list, sizeof list) == 0);
    CHECK(memcmp(before, catalogue, sizeof catalogue) == 0);
}

/* A few pieces, worked out by hand. */
static void by_hand(void)
{
    static const uint32_t wanted[] = {40, 6, 62, 0, 5, 63, 17, 64, 64};
    fill(0);
    catalogue[0] = catalogue[5] = catalogue[63] = 9;
    catalogue[6] = catalogue[62] = 3;
    catalogue[17] = 255;
    catalogue[40] = 1;
    catalogue[1] = catalogue[61] = 256;
    listed(7);
    CHECK(memcmp(list, wanted, sizeof wanted) == 0 && list[63] == 64);
}

/* None entered; all in one hoard, the least, one between or the largest; one alone; rising and falling. */
static void edges(void)
{
    for (uint32_t hoard = 1; hoard <= 255; hoard += 127) {
        fill(hoard);
        listed(64);
        for (size_t piece = 0; piece < 64; piece++) {
            fill(piece % 2 == 0 ? 0 : 256);
            catalogue[piece] = hoard;
            listed(1);
            CHECK(list[0] == piece);
        }
    }
    fill(0);
    listed(0);
    fill(256);
    listed(0);
    for (uint32_t piece = 0; piece < 64; piece++)
        catalogue[piece] = 192 + piece;
    listed(64);
    for (uint32_t piece = 0; piece < 64; piece++)
        catalogue[piece] = 64 - piece;
    listed(64);
    for (uint32_t piece = 0; piece < 64; piece++)
        catalogue[piece] = piece % 3 == 0 ? 255 : piece % 3 == 1 ? 1 : 0;
    listed(43);
}

/* A length that is not 64, of one row or of both; it comes before a cell above 256. */
static void lengths(void)
{
    static const size_t any[] = {0, 63, 64, 65};
    static const uint32_t numbers[] = {0, 1, 256, 257, UINT32_MAX};
    for (size_t i = 0; i < sizeof numbers / sizeof numbers[0]; i++) {
        fill(numbers[i]);
        for (size_t cells = 0; cells < 4; cells++)
            for (size_t length = 0; length < 4; length++)
                if (any[cells] != 64 || any[length] != 64)
                    refused(HOARD_LIST_E_LENGTH, any[cells], any[length]);
    }
}

/* One cell above 256, at each place. The last byte of most numbers could be a hoard. */
static void cells_above(void)
{
    static const uint32_t above[] = {257, 511, 512, 65537, UINT32_C(1) << 31, UINT32_MAX};
    static const uint32_t others[] = {0, 1, 255, 256};
    for (size_t i = 0; i < sizeof above / sizeof above[0]; i++)
        for (size_t other = 0; other < 4; other++)
            for (size_t piece = 0; piece < 64; piece++) {
                fill(others[other]);
                catalogue[piece] = above[i];
                refused(HOARD_LIST_E_CELLS, 64, 64);
            }
    /* The cell beyond the catalogue is not looked at. */
    fill(255);
    catalogue[64] = UINT32_MAX;
    listed(64);
}

int main(void)
{
    constants_and_messages();
    by_hand();
    edges();
    lengths();
    cells_above();
    return failed();
}
