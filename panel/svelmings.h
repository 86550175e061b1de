/* The checker of version store logs, as the C program on the mill's panel calls it.
 *
 * `python3 second/built.py` makes the archive target/staticlib/libchecker.a that defines it, for x86-64 Linux. The function is proved
 * for all bytes and lengths: it always returns, reads nothing but the log and the order, and writes nothing but the answer's first
 * bytes. What is not proved is this declaration, that it fits the archive, and that each pointer leads to as many bytes as its length
 * says, 0 included: a pointer is never null, and the answer overlaps neither the log nor the order.
 */
#ifndef SVELMINGS_H
#define SVELMINGS_H

#include <stddef.h>
#include <stdint.h>

#ifdef __cplusplus
extern "C" {
#endif

/* Judges a log under a version order. Returns code * 65536 + number.
 *
 *  code  what it means                                                   number
 *     0  accepted: the answer has a serial order of the committed        how many stamps
 *        transactions, 4 bytes a stamp, high byte first
 *    30  cycle: the answer has a cycle along its edges, its smallest     how many stamps
 *        stamp first, 4 bytes a stamp, high byte first
 *    21  the log is over 65,536 bytes, or its header is wrong or cut     0
 *    22  unknown tag, wrong length, cut field, cause over 1              the field's place
 *    23  stamp 0, begun already, or not begun or already ended           the field's place
 *    24  item over 63, or second write of it                             the field's place
 *    25  version not written earlier or aborted earlier; value differs;  the field's place
 *        own earlier write not the one read
 *    26  over 256 committed                                              0
 *    27  committed reader of a version whose writer never commits        the first such read's place
 *    28  the version order is not one of this log                        0
 *    29  the answer has under 4 bytes for each committed transaction     0
 *
 * A place is a byte offset from the log's front. Codes 21 to 29 leave the answer as it was; 0 and 30 change no byte past the last
 * stamp. 1,024 bytes are room enough for every answer. The stack is used for some 400 KB.
 */
uint32_t svelmings_check(const uint8_t *log, size_t log_length,
                         const uint8_t *order, size_t order_length,
                         uint8_t *answer, size_t answer_length);

#define SVELMINGS_ACCEPTED 0u
#define SVELMINGS_CYCLE 30u

/* What a returned number says. */
static inline uint32_t svelmings_code(uint32_t returned) { return returned / 65536u; }
static inline uint32_t svelmings_number(uint32_t returned) { return returned % 65536u; }

#ifdef __cplusplus
}
#endif

#endif
