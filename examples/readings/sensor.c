// A sensor: writes its readings to a stream, three at a time.
#include "canon.h"

IMPORT("[export]example:sensor/readings@0.1.0", "[task-return]recent") void recent_return(u32 readable);
IMPORT("[export]example:sensor/readings@0.1.0", "[stream-new-0]recent") u64 stream_new(void);
IMPORT("[export]example:sensor/readings@0.1.0", "[async-lower][stream-write-0]recent")
u32 stream_write(u32 writable, const s16 *from, u32 count);
IMPORT("[export]example:sensor/readings@0.1.0", "[stream-drop-writable-0]recent") void stream_drop_writable(u32 writable);

static s16 readings[3];
static u32 set, writable, written, wanted;

// The reading of this number: it falls, and rises again from the fifth on.
static s16 reading(u32 number) {
    return number < 5 ? 20 - 15 * (s16)number : 10 * (s16)number - 80;
}

// Writes until the other side is waited for, or all is written.
static u32 write_on(void) {
    while (written < wanted) {
        u32 count = 0;
        for (; count < 3 && written + count < wanted; count++)
            readings[count] = reading(written + count);
        u32 answer = stream_write(writable, readings, count);
        if (answer == BLOCKED)
            return WAIT(set);
        written = DROPPED(answer) ? wanted : written + COUNT(answer);
    }
    waitable_join(writable, 0);
    waitable_set_drop(set);
    stream_drop_writable(writable);
    return OVER;
}

EXPORT("[async-lift]example:sensor/readings@0.1.0#recent") u32 recent(u32 count) {
    u64 ends = stream_new();
    writable = ends >> 32;
    written = 0;
    wanted = count;
    set = waitable_set_new();
    waitable_join(writable, set);
    recent_return((u32)ends);
    return write_on();
}

EXPORT("[callback][async-lift]example:sensor/readings@0.1.0#recent") u32 recent_goes_on(u32 event, u32 index, u32 answer) {
    written = DROPPED(answer) ? wanted : written + COUNT(answer);
    return write_on();
}
