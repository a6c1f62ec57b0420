/* The hoard lists for the printer, for C and C++.
 *
 * Link with libprinting_c.a, which `rt lib` in the folder crates/printing_c writes to its
 * folder out. It stands above the register and does not need it: this header can be used
 * alone, or beside register.h in one program. The library needs no other.
 *
 * A catalogue is a row of 64 cells, one for each piece: 0 for a piece in no hoard, its hoard
 * (1 to 255) while it is entered, 256 once it was struck. register_catalogue writes such a
 * row. The call judges every cell that it is lent, so the cells may come from anywhere; a
 * catalogue that the register wrote is never refused with 3. A call that is refused changes
 * no cell.
 *
 * What the caller owes: each pointer is to as many elements as the length says, is
 * aligned and not null, and the list does not overlap the catalogue. A length of 0 still
 * wants a pointer that is not null. The call keeps no pointer. Two calls at the same time
 * must not share a row that one of them writes.
 */
#ifndef PRINTING_H
#define PRINTING_H

#include <stddef.h>
#include <stdint.h>

#ifdef __cplusplus
extern "C" {
#endif

/* The cells of a catalogue, and those of a list. */
#define HOARD_LIST_CELLS 64

/* What stands in each cell of a list after its last piece. Every piece is below it. */
#define HOARD_LIST_NO_PIECE 64u

/* The word of an answer: its upper half. */
#define HOARD_LIST_DONE 0u
#define HOARD_LIST_REFUSED 4u

/* The word and the number of an answer. */
#define HOARD_LIST_WORD(answer) ((uint32_t)((uint64_t)(answer) >> 32))
#define HOARD_LIST_NUMBER(answer) ((uint32_t)(answer))

/* The refusals: the number of an answer whose word is refused. They are numbered as those of
 * the register are. Where both apply the lower is given. */
#define HOARD_LIST_E_LENGTH 2u
#define HOARD_LIST_E_CELLS 3u

/* A sentence for a refusal, "unknown refusal" for any other number. */
static inline const char *hoard_list_message(uint32_t refusal)
{
    switch (refusal) {
    case HOARD_LIST_E_LENGTH:
        return "the catalogue or the list has not 64 cells";
    case HOARD_LIST_E_CELLS:
        return "a cell of the catalogue is above 256";
    default:
        return "unknown refusal";
    }
}

/* Lists the entered pieces of the catalogue, which has `cells` cells, in `list`, of which
 * there are `length`; both must be 64. The pieces stand by rising hoard, and by rising piece
 * within a hoard; each entered piece stands there once, and no struck or absent one does.
 * HOARD_LIST_NO_PIECE stands in the cells after them. The answer is the number of entered
 * pieces, or refused with 2 or 3. */
uint64_t hoard_list(const uint32_t *catalogue, size_t cells, uint32_t *list, size_t length);

#ifdef __cplusplus
}
#endif

#endif
