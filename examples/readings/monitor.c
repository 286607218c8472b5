// A monitor: asks a sensor for readings, reads two at a time, and returns the lowest.
#include "canon.h"

IMPORT("example:sensor/readings@0.1.0", "[async-lower]recent") u32 recent(u32 count, u32 *readable);
IMPORT("example:sensor/readings@0.1.0", "[async-lower][stream-read-0]recent") u32 stream_read(u32 readable, s16 *to, u32 count);
IMPORT("example:sensor/readings@0.1.0", "[stream-drop-readable-0]recent") void stream_drop_readable(u32 readable);
IMPORT("[export]$root", "[task-return]coldest") void coldest_return(u32 is_there, s16 lowest);

static s16 readings[2];
static u32 set, readable, is_there;
static s16 lowest;

// Takes what was read, and tells whether there is no more.
static u32 take(u32 answer) {
    for (u32 at = 0; at < COUNT(answer); at++)
        if (!is_there || readings[at] < lowest) {
            is_there = 1;
            lowest = readings[at];
        }
    return DROPPED(answer);
}

// Reads until the other side is waited for, or there is no more.
static u32 read_on(u32 is_over) {
    while (!is_over) {
        u32 answer = stream_read(readable, readings, 2);
        if (answer == BLOCKED)
            return WAIT(set);
        is_over = take(answer);
    }
    waitable_join(readable, 0);
    waitable_set_drop(set);
    stream_drop_readable(readable);
    coldest_return(is_there, lowest);
    return OVER;
}

EXPORT("[async-lift]coldest") u32 coldest(u32 count) {
    // (the sensor returns its stream before it waits, so it has returned here: state 2, and no subtask)
    if (recent(count, &readable) != 2)
        __builtin_trap();
    is_there = 0;
    lowest = 0;
    set = waitable_set_new();
    waitable_join(readable, set);
    return read_on(0);
}

EXPORT("[callback][async-lift]coldest") u32 coldest_goes_on(u32 event, u32 index, u32 answer) {
    return read_on(take(answer));
}
