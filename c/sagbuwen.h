/*
 * sagbuwen: the parameter unit of a traffic signal controller, for a cabinet's
 * firmware.
 *
 * The unit keeps the controller's parameter table: 2,544 cells for phases,
 * vehicle and pedestrian detectors, patterns, splits, actions and sequences. The
 * firmware starts it once and then hands it one request after another; each call
 * answers before it returns.
 *
 * The library owns no memory. It does not allocate, has no global state, does no
 * input or output and starts no thread. All it knows from one call to the next
 * stands in the memories and the mode that the firmware hands in:
 *
 *   running   the table that the controller runs on
 *   draft     the table that is being edited; until an edit is opened it may hold
 *             anything
 *   mode      whether an edit is open: SAGBUWEN_QUIET, _EDITING or _CHECKED
 *
 * A memory comes in one of two forms, each with calls of its own:
 *
 *   words     SAGBUWEN_CELLS words, one to a cell. A wide cell (a phase's
 *             options, a detector's delay) is its whole word. Any other cell is
 *             narrow: the low octet of its word. The high octet of that word is
 *             the firmware's, and no call changes it.
 *   packed    SAGBUWEN_PACKED_OCTETS octets, cell after cell: one octet to a
 *             narrow cell, two, the high one first, to a wide one.
 *
 * Rules of use
 *
 *   - No pointer is NULL, not even one whose length is 0.
 *   - Every length is that of the memory behind the pointer: counted in words
 *     for words, else in octets. Words are aligned as a uint16_t is.
 *   - Running memory, draft memory, reply memory and the request's octets do not
 *     overlap.
 *   - Start the running memory first, then hand each request the mode that the
 *     call before returned.
 *   - Nothing else writes the memories from one call to the next, but for the
 *     high octets of narrow cells.
 *   - Calls on different memories may run at the same time, calls on the same
 *     ones may not.
 *   - A request keeps two work lists on the stack, 4,288 octets together, and
 *     up to 1,700 octets besides: allow it 7 KB of stack.
 *
 * The library is built for x86-64 with the System V calling convention.
 */
#ifndef SAGBUWEN_H
#define SAGBUWEN_H

#include <stddef.h>
#include <stdint.h>

#ifdef __cplusplus
extern "C" {
#endif

/* The cells of the table, and so the words of a memory of words. */
#define SAGBUWEN_CELLS 2544

/* The octets of a packed memory. */
#define SAGBUWEN_PACKED_OCTETS 2624

/* The octets of reply memory that every request needs and sets; longer is fine. */
#define SAGBUWEN_REPLY_OCTETS 1024

/* Modes. */
#define SAGBUWEN_QUIET 0   /* no edit is open */
#define SAGBUWEN_EDITING 1 /* an edit is open */
#define SAGBUWEN_CHECKED 2 /* an edit is open, and its draft was checked */

/* What a call comes to. */
#define SAGBUWEN_ACCEPTED 0
#define SAGBUWEN_NO_ROOM 1      /* reply memory is shorter than 1,024 octets */
#define SAGBUWEN_NO_SUCH 2      /* an address names no number of the table, or a
                                   block's header no rows of it */
#define SAGBUWEN_NOT_ALLOWED 3  /* a value is not allowed where it is to stand */
#define SAGBUWEN_WRONG_MODE 5   /* the operation is not taken in this mode */
#define SAGBUWEN_MALFORMED 6    /* no octets, an operation that is not known, a
                                   count out of range or not that of a block's
                                   rows, octets missing or over */
#define SAGBUWEN_WRONG_MEMORY 9 /* a memory has not the table's count of cells */

/* What a call returns: a number from the list above, the mode after the call,
   and how many octets of reply memory are the reply. */
typedef struct sagbuwen_answer {
    uint8_t number;
    uint8_t mode;
    size_t length;
} sagbuwen_answer;

/*
 * Factory start: writes the factory table to the running memory. Returns number
 * 0; or 9 where the memory has not the table's count of cells, and then changes
 * nothing. Returns SAGBUWEN_QUIET and length 0 either way.
 */
sagbuwen_answer sagbuwen_factory_start_words(uint16_t *running, size_t running_words);

sagbuwen_answer sagbuwen_factory_start_packed(uint8_t *running, size_t running_octets);

/*
 * One request. The answer says what it came to, the mode for the next request,
 * and the length of the reply, which stands at the front of reply memory.
 *
 * 9 and 1: the memories are tested first, then the room in reply memory. Such a
 * call changes nothing at all, reply memory included; it returns length 0 and
 * the mode as handed in.
 *
 * Any other call replies. Behind the reply, reply memory is zero up to octet
 * 1,024; later octets are untouched. The reply's first octet is the number
 * returned. The reply to a refusal has four octets: the number; the layer of the
 * fault; and its place, high octet first: the offset in the request of the octet at
 * fault or of the first octet of the address or value at fault, or the request's
 * length where octets are missing. A refused request changes no cell and leaves the
 * mode as it is.
 *
 *   layer                    number
 *   1, the request's octets  6
 *   2, the mode              5
 *   3, a block's header      2: a data type, data ID, index or quantity that the
 *                            table has not; 6: a count that is not that of the rows
 *   4, values                2: an address; 3: a value
 *
 * Requests by their first octet; the mode is tested before the octets behind it:
 *
 *   1, get: a count n of 1 to 32, then n addresses of four octets (data ID,
 *   column, first index, second index or 0). The reply: 0, n, then the n values of
 *   the running table, two octets each, the high one first. Taken in every mode. It
 *   changes no cell.
 *
 *   2, set: a count n of 1 to 32, then n addresses as in a get, then n values of
 *   two octets, the high one first. The reply: 0. The draft takes the values in
 *   order, all of them or none: of two values for one number the last counts. Each
 *   item is tested in turn, its address before its value. A vehicle detector's
 *   options with bits 2 and 3 both set are taken with bit 3 clear. Taken while
 *   editing, and leaves the mode so. It changes no cell of the running table.
 *
 *   3, get block: a block's header without its count. The reply: 0, then the block of
 *   these rows of the running table. Taken in every mode. It changes no cell.
 *
 *   4, set block: a block. The reply: 0. The draft takes its rows, all of them or
 *   none, a vehicle detector's options as in a set. Taken while editing, and leaves
 *   the mode so. It changes no cell of the running table.
 *
 *   5, open: nothing behind it. The reply: 0. The draft's cells become those of
 *   the running table, and the mode becomes editing. Taken while quiet.
 *
 *   9, abandon: nothing behind it. The reply: 0. The mode becomes quiet; no cell
 *   changes. Taken while editing or checked.
 *
 * A block is a header, a count and rows of one family. Its octets are tested in
 * order, and the first at fault decides. The header: the data type 0, the data ID,
 * the first index to begin with and its quantity; for the data IDs 4 and 7 then the
 * second index to begin with and its quantity. The count, which is the product of the
 * quantities: 1 and one octet, or for 256 rows 2, 1 and 0. Then the rows, the first
 * index innermost, by data ID:
 *
 *   0, phase 1 to 16: the columns 1 to 19, options*, ring, list of concurrent phases
 *   1, vehicle detector 1 to 64: options, call phase, switch phase, delay*, extend,
 *      queue limit, no activity, maximum presence, erratic counts, fail time
 *   2, pedestrian detector 1 to 8: call phase, no activity, maximum presence, erratic
 *      counts
 *   3, pattern 1 to 32: cycle, offset, sequence number; the split number is not
 *      carried, and a set block leaves it as it is
 *   4, phase 1 to 16, then split 1 to 16: time, mode, coordinated
 *   5, time base action 1 to 32: pattern, auxiliary function, special function
 *   7, ring 1 to 4, then sequence 1 to 4: list of phases
 *
 * A number is one octet; those with a star are two, the high one first. A list is its
 * length, at most 16, and as many octets; a set block leaves 0 in its other cells.
 */
sagbuwen_answer sagbuwen_request_words(uint8_t mode,
                                       uint16_t *running, size_t running_words,
                                       uint16_t *draft, size_t draft_words,
                                       const uint8_t *request, size_t request_octets,
                                       uint8_t *reply, size_t reply_octets);

sagbuwen_answer sagbuwen_request_packed(uint8_t mode,
                                        uint8_t *running, size_t running_octets,
                                        uint8_t *draft, size_t draft_octets,
                                        const uint8_t *request, size_t request_octets,
                                        uint8_t *reply, size_t reply_octets);

#ifdef __cplusplus
}
#endif

#endif
