/* The machine of MV/L, as hek_machine runs it, for programs in C and what can call them.
 *
 * A call takes the text of a schedule (docs/FORMATS.md), runs it from its first step, and writes what it made into memory of the
 * caller's. It keeps nothing: to step a machine, add a line to the text and call again. Other threads may call at the same time.
 * Memory comes from malloc, and is given back before a call returns.
 */
#ifndef HEK_MACHINE_H
#define HEK_MACHINE_H

#include <stddef.h>
#include <stdint.h>

#ifdef __cplusplus
extern "C" {
#endif

enum hek_made_status {
    HEK_MADE = 0,
    HEK_BAD_LINE = 1,  /* a line of the schedule is at fault: the first one is `line`, counted from 1 */
    HEK_NOT_TEXT = 2,  /* the schedule isn't UTF-8 */
    HEK_NO_MEMORY = 3,
    HEK_NO_ROOM = 4    /* what was made has `length` bytes, more than there is room for */
};

struct hek_made {
    uint64_t length; /* how many bytes were made */
    uint64_t line;
    uint32_t status; /* with any but HEK_MADE nothing was written */
};

/* The trace: a line for each step with its reply, as `hek run` prints it. */
struct hek_made hek_run(const uint8_t *schedule, size_t length, uint8_t *out, size_t room);

/* The trace of the first steps, as many as `steps` or all, and then the state: the clock, and a line for each version,
 * transaction and locked bucket, as `hek run --state-at` prints them. */
struct hek_made hek_state(const uint8_t *schedule, size_t length, uint64_t steps, uint8_t *out, size_t room);

#ifdef __cplusplus
}
#endif

#endif
