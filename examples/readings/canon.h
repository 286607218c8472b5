// What both components take from the Component Model, under the names that the component linker knows.
#define IMPORT(module, name) __attribute__((import_module(module), import_name(name)))
#define EXPORT(name) __attribute__((export_name(name)))

typedef short s16;
typedef unsigned int u32;
typedef unsigned long long u64;

IMPORT("$root", "[waitable-set-new]") u32 waitable_set_new(void);
IMPORT("$root", "[waitable-set-drop]") void waitable_set_drop(u32 set);
IMPORT("$root", "[waitable-join]") void waitable_join(u32 waitable, u32 set);

// What a read or a write answers where the other side is not there yet; else it is a number of elements, times 16, and in the lowest
// bits how it ended.
#define BLOCKED 0xFFFFFFFFu
#define COUNT(answer) ((answer) >> 4)
#define DROPPED(answer) ((answer) & 1)

// What a callback answers: the task is over, or it waits for an event of a set.
#define OVER 0u
#define WAIT(set) (2u | (set) << 4)
