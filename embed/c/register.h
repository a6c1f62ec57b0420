/* The hoard register for C and C++.
 *
 * Link with libregister_c.a, which `rt lib` in the folder crates/register_c writes to
 * its folder out. It needs nothing but memset of the C library.
 *
 * A room is a row of 32-bit cells that the caller lends. Every call judges every
 * cell that it is lent, so the cells may come from anywhere. A call that is refused
 * changes no cell and no byte.
 *
 * What the caller owes: each pointer is to as many elements as the length says, is
 * aligned and not null, and what a call writes overlaps nothing else that is lent to
 * the same call. A length of 0 still wants a pointer that is not null. No call keeps
 * a pointer. Two calls at the same time must not share a row that one of them writes.
 */
#ifndef REGISTER_H
#define REGISTER_H

#include <stddef.h>
#include <stdint.h>

#ifdef __cplusplus
extern "C" {
#endif

/* The most cells of a room, the cabinets of a museum, the cells of a catalogue, the bytes of
 * the longest record, the fields of a record. */
#define REGISTER_MOST_CELLS 2508
#define REGISTER_CABINETS 8
#define REGISTER_PIECES 64
#define REGISTER_LONGEST_RECORD 8
#define REGISTER_FIELDS 6

/* The word of an answer: its upper half. */
#define REGISTER_DONE 0u
#define REGISTER_OUTBID 1u
#define REGISTER_CHOSEN 2u
#define REGISTER_COMMITTED 3u
#define REGISTER_REFUSED 4u

/* The word and the number of an answer. */
#define REGISTER_WORD(answer) ((uint32_t)((uint64_t)(answer) >> 32))
#define REGISTER_NUMBER(answer) ((uint32_t)(answer))

/* The refusals: the number of an answer whose word is refused. Of those that apply the
 * lowest is given; a record has an order of its own, and register_next looks at the length
 * last. */
#define REGISTER_E_SIZES 1u
#define REGISTER_E_LENGTH 2u
#define REGISTER_E_CELLS 3u
#define REGISTER_E_BEYOND 4u
#define REGISTER_E_NOT_A_COMMAND 5u
#define REGISTER_E_NOT_ITS_BALLOT 6u
#define REGISTER_E_WRONG_PHASE 7u
#define REGISTER_E_DRIVE_OFF 8u
#define REGISTER_E_NOT_WRITTEN 9u
#define REGISTER_E_NO_MAJORITY 10u
#define REGISTER_E_NOT_ABOVE 11u
#define REGISTER_E_NOTHING_OFFERED 12u
#define REGISTER_E_NO_BALLOT_LEFT 13u
#define REGISTER_E_CUT_SHORT 14u
#define REGISTER_E_MALFORMED 15u
#define REGISTER_E_NOT_FREE 16u
#define REGISTER_E_NO_FREE_SLOT 17u
#define REGISTER_E_LIMITS 18u
#define REGISTER_E_NO_MAJORITY_ON 19u

/* A sentence for a refusal, "unknown refusal" for any other number. */
static inline const char *register_message(uint32_t refusal)
{
    switch (refusal) {
    case REGISTER_E_SIZES:
        return "the sizes fit no room: 1 to 4 servers, 1 to 7 drives, 1 to 16 slots";
    case REGISTER_E_LENGTH:
        return "the length of the lent cells or bytes is wrong";
    case REGISTER_E_CELLS:
        return "the lent row is no room, or a cell of it is out of range";
    case REGISTER_E_BEYOND:
        return "a server, slot or drive is beyond the room, or the other server is the server itself";
    case REGISTER_E_NOT_A_COMMAND:
        return "the number is not a command, or the cabinet has no such hoard";
    case REGISTER_E_NOT_ITS_BALLOT:
        return "the ballot is 0, above 1,000,000 or another server's";
    case REGISTER_E_WRONG_PHASE:
        return "the server is in a phase that does not allow this step";
    case REGISTER_E_DRIVE_OFF:
        return "the drive is off";
    case REGISTER_E_NOT_WRITTEN:
        return "the drive was not written in this phase";
    case REGISTER_E_NO_MAJORITY:
        return "no majority of drives was recalled, or written and read (half of them counts only with drive 0)";
    case REGISTER_E_NOT_ABOVE:
        return "the ballot is not above those that the server knows";
    case REGISTER_E_NOTHING_OFFERED:
        return "no command was seen and none is offered";
    case REGISTER_E_NO_BALLOT_LEFT:
        return "the server was outbid and has no ballot left";
    case REGISTER_E_CUT_SHORT:
        return "the record is cut short";
    case REGISTER_E_MALFORMED:
        return "the record is malformed";
    case REGISTER_E_NOT_FREE:
        return "the slot is not free: the server offers a command there or has settled it";
    case REGISTER_E_NO_FREE_SLOT:
        return "no slot is free for the server";
    case REGISTER_E_LIMITS:
        return "the limit of a cabinet is not 1 to 255";
    case REGISTER_E_NO_MAJORITY_ON:
        return "the on drives form no majority (half of them counts only with drive 0)";
    default:
        return "unknown refusal";
    }
}

/* The kinds of step. A server that has settled a slot, which is phase 3, can still write:
 * its block then tells what was settled. A server in phase 1 or 2 that reads such a block
 * has learned it: the answer is committed, and the slot is settled for it too. */
#define REGISTER_OFFER 1u
#define REGISTER_RECALL 2u
#define REGISTER_REJOIN 3u
#define REGISTER_BID 4u
#define REGISTER_WRITE 5u
#define REGISTER_READ 6u
#define REGISTER_FINISH 7u
#define REGISTER_FAIL 8u
#define REGISTER_DRIVE_OFF 9u
#define REGISTER_DRIVE_ON 10u

/* The limits of the cabinets: the largest hoard of each, 1 to 255. Cabinet c has the
 * pieces from 8c to 8c + 7. A room keeps those that it is opened with, and so one number may
 * be a command in one room and none in another. Here are the usual ones, as the initialiser
 * of an array of REGISTER_CABINETS numbers. */
#define REGISTER_USUAL_LIMITS {255u, 255u, 200u, 200u, 120u, 120u, 60u, 60u}

/* Commands: a piece (0 to 63) enters a hoard, moves to another, is struck. 0, which is
 * no command, where the piece is above 63 or the hoard above 255; whether the cabinet
 * of the piece has such a hoard is judged by the room where the command is offered. An
 * argument is evaluated more than once. */
#define REGISTER_ENTER(piece, hoard) REGISTER_COMMAND(1u, piece, hoard)
#define REGISTER_MOVE(piece, hoard) REGISTER_COMMAND(2u, piece, hoard)
#define REGISTER_STRIKE(piece) REGISTER_COMMAND(3u, piece, 0u)
#define REGISTER_COMMAND(kind, piece, hoard)                                             \
    ((uint64_t)(piece) < REGISTER_PIECES && (uint64_t)(hoard) < 256u                     \
         ? (kind) << 16 | (uint32_t)(piece) << 8 | (uint32_t)(hoard)                     \
         : 0u)

/* A command taken apart: 1 enters, 2 moves, 3 strikes; its piece; its hoard. */
#define REGISTER_KIND_OF(command) ((uint32_t)(command) >> 16)
#define REGISTER_PIECE_OF(command) ((uint32_t)(command) >> 8 & 255u)
#define REGISTER_HOARD_OF(command) ((uint32_t)(command)&255u)

/* A catalogue's cell: 0 for a piece that was not entered yet, its hoard (1 to 255) while
 * it is entered, REGISTER_STRUCK once it was struck. A struck number is not used again. */
#define REGISTER_STRUCK 256u
#define REGISTER_ENTERED(cell) ((uint64_t)(cell)-1u < REGISTER_STRUCK - 1u)

/* The cell of the off marks: bit d says that drive d is off. */
#define REGISTER_OFF_MARKS 3u

/* The first of the eight cells with the limits of the cabinets. No call but register_open
 * changes them. */
#define REGISTER_LIMITS 4u

/* The cells of a server's record, counted from the first. Agreed is the command that was
 * settled, 0 if the server has settled and learned none; in phase 3 it is what a catalogue
 * takes from the slot. */
#define REGISTER_SERVER_PHASE 0u
#define REGISTER_SERVER_MBAL 1u
#define REGISTER_SERVER_BAL 2u
#define REGISTER_SERVER_INP 3u
#define REGISTER_SERVER_OFFER 4u
#define REGISTER_SERVER_TOP 5u
#define REGISTER_SERVER_SEENBAL 6u
#define REGISTER_SERVER_SEENINP 7u
#define REGISTER_SERVER_WRITTEN 8u
#define REGISTER_SERVER_READ 9u
#define REGISTER_SERVER_AGREED 10u

/* The cells of a block, counted from the first. Done is the command that was settled, 0 if
 * the block does not tell it. */
#define REGISTER_BLOCK_MBAL 0u
#define REGISTER_BLOCK_BAL 1u
#define REGISTER_BLOCK_INP 2u
#define REGISTER_BLOCK_DONE 3u

/* The number of cells of a room with so many servers (1 to 4), drives (1 to 7) and
 * slots (1 to 16); 0 where the sizes do not fit. */
uint32_t register_length(uint32_t servers, uint32_t drives, uint32_t slots);

/* The first cell of a server's record in a slot, in a room of these sizes; 0 where the
 * sizes do not fit or the place is beyond the room. */
uint32_t register_server_at(uint32_t servers, uint32_t drives, uint32_t slots, uint32_t server, uint32_t slot);

/* The first cell of a server's block on a drive in a slot; 0 likewise. */
uint32_t register_block_at(uint32_t servers, uint32_t drives, uint32_t slots, uint32_t server, uint32_t slot,
                           uint32_t drive);

/* Makes the row a new room of these sizes, whose cabinets have these limits; what it held
 * is not heeded. It has `cells` cells, as many as register_length says, and there are
 * `count` limits, which must be 8 and lie outside the row. Answers 0, or the refusal: 1, 2
 * or 18. */
uint32_t register_open(uint32_t *row, size_t cells, uint32_t servers, uint32_t drives, uint32_t slots,
                       const uint32_t *limits, size_t count);

/* Takes the step of the record at `bytes`, of which there are `length`; bytes beyond
 * the record are ignored. The answer's word is done, outbid, chosen, committed or
 * refused; its number is 0, the ballot found, the command, the command, or the
 * refusal: 3 to 15. A record that cannot be read is refused with 14 or 15. */
uint64_t register_step(uint32_t *room, size_t cells, const uint8_t *bytes, size_t length);

/* Asks for the lowest slot that is free for the server: it offers nothing there and is
 * not in phase 3. No cell changes. The answer's word is done and its number the slot, or
 * it is refused with 3, 4 or 17. */
uint64_t register_ask(const uint32_t *room, size_t cells, uint32_t server);

/* Offers the command, as an Offer does, but only in a slot that is free for the server.
 * The slot that its register_ask named is free until another call on the room. The answer
 * is 0, or refused with 3, 4, 5 or 16. */
uint64_t register_put(uint32_t *room, size_t cells, uint32_t server, uint32_t slot, uint32_t command);

/* Writes the record of the server's next step in the slot to `bytes`, of which there are
 * `length`, and leaves later bytes alone; 8 bytes are always enough. No cell changes. The
 * step is for a server that acts alone: it uses the first drives that are on up to a majority,
 * and the least ballot that it may have. In phase 0 it recalls these drives, then rejoins; in
 * phases 1 and 2 it writes each in turn and reads the others there, then finishes. What is
 * already marked is passed over.
 *
 * The answer's word is done and its number the length of the record, or 0 where there is no
 * next step: in phase 3, where the step would be refused, or where no ballot is left. It is
 * refused with 3, 4 or 19, and at last with 2 where there is a step and its record does not
 * fit.
 *
 * A server that has just failed and then offered a command in the slot commits within
 * 3 + m + 2mN + m*m*N*(N-1) of these steps, where N is the number of servers and m that of the
 * drives used, if the drives that are on are a majority, no mbal on the slot's blocks is above
 * 999,990, no other server steps and no drive is switched. */
uint64_t register_next(const uint32_t *room, size_t cells, uint32_t server, uint32_t slot, uint8_t *bytes,
                       size_t length);

/* Writes what one server knows to `out`, of which there are `length` cells, which must
 * be 64: each piece's hoard, 0 for a piece that has none, REGISTER_STRUCK for one that
 * was struck. The answer is taken * 256 + skipped, or refused with 2, 3 or 4. */
uint64_t register_catalogue(const uint32_t *room, size_t cells, uint32_t server, uint32_t *out, size_t length);

/* Judges the record at `bytes`. The answer is the length of the record, or refused
 * with 14 or 15. */
uint64_t register_read(const uint8_t *bytes, size_t length);

/* Reads the record at `bytes` and writes its kind, server, slot, drive, other and number
 * to `fields`, of which there are `count`, which must be 6; a field that the kind lacks
 * is 0. The answer is the length of the record, or refused with 2, 14 or 15. */
uint64_t register_fields(const uint8_t *bytes, size_t length, uint32_t *fields, size_t count);

/* Writes the record of a step to `bytes` and leaves later bytes alone; 8 bytes are
 * always enough. A field that the kind lacks is not looked at. `number` is the command
 * of an Offer, the ballot of a Rejoin or a Bid. The answer is the length of the
 * record, or refused with 2, or with 15 where the kind is not 1 to 10. */
uint64_t register_write(uint8_t kind, uint8_t server, uint8_t slot, uint8_t drive, uint8_t other,
                        uint32_t number, uint8_t *bytes, size_t length);

#ifdef __cplusplus
}
#endif

#endif
