/* The layout of a session and of an answer, in bytes: the library reads and writes the parts at these offsets. Rust callers are held to
 * the same by rust/belaykeel/src/session.rs and raw.rs. That the library keeps to it is seen where thin_coil.c prints the parts. */
#include "belaykeel.h"

#define AT(type, part, offset) _Static_assert(offsetof(type, part) == (offset), #part " of " #type)
#define SIZE(type, bytes) _Static_assert(sizeof(type) == (bytes), "size of " #type)

AT(belaykeel_session, choices, 0);
AT(belaykeel_session, strikes, 96);
AT(belaykeel_session, events, 192);
AT(belaykeel_session, count, 960);
AT(belaykeel_session, selected, 964);
SIZE(belaykeel_session, 968);

AT(belaykeel_event, kind, 0);
AT(belaykeel_event, field, 4);
AT(belaykeel_event, position, 8);
SIZE(belaykeel_event, 12);

AT(belaykeel_answer, number, 0);
AT(belaykeel_answer, length, 8);
SIZE(belaykeel_answer, 16);
