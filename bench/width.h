/* The width of the keys that are measured. bin/bench builds each program twice, with -DWIDTH=13 and with -DWIDTH=37, so that the C knows it when it
 * is compiled. */
#ifndef WIDTH_H
#define WIDTH_H

#include "flow.h"

#ifndef WIDTH
#define WIDTH FLOW_IPV4_WIDTH
#endif

enum {
    KEY = WIDTH,
    WIDE = KEY == FLOW_IPV6_WIDTH,
    RECORD = FLOW_RECORD_BYTES(KEY),
    TABLE = FLOW_HASH_TABLE_NUMBERS(KEY), /* by byte */
    HALVES = FLOW_HALF_BYTE_TABLE_NUMBERS /* by half-byte, at 37 */
};

/* The settings that a struct holds, but for the width: it is passed as the constant that it is, and not at all to doors that took none. */
#define SIX_OF(of) (of)->p, (of)->k, (of)->room, (of)->top, (of)->capacity, (of)->side_places

/* What there is at 37 alone: a function, or NULL. */
#define WHERE_WIDE(f) (WIDE ? (function *)(f) : (function *)0)

#endif
