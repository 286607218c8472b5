/* Functions over the items on a shelf, as WIT's `shelf` has them. */
typedef unsigned char u8;
typedef unsigned int u32;
typedef unsigned long long u64;
#define EXPORT(name) __attribute__((export_name("example:stock/shelf#" name)))

struct text { u8 *bytes; u32 length; };
struct item { struct text name; u32 count; };
struct found { u8 tag; u32 at; };

/* What the caller's values are placed in: memory is given out once, and never taken back. */
static u8 heap[1 << 16];
static u32 top;
__attribute__((export_name("cabi_realloc"))) void *cabi_realloc(void *old, u32 old_size, u32 align, u32 size) {
    top = (top + align - 1) & ~(align - 1);
    u8 *place = heap + top;
    if (size > sizeof heap - top) __builtin_trap();
    top += size;
    for (u32 i = 0; i < old_size && i < size; i++) place[i] = ((u8 *)old)[i];
    return place;
}

EXPORT("total") u64 total(struct item *items, u32 count) {
    u64 sum = 0;
    for (u32 i = 0; i < count; i++) sum += items[i].count;
    return sum;
}

EXPORT("level-of") u32 level_of(u32 count) {
    return count < 3 ? 0 : count < 10 ? 1 : 2;
}

static int same(struct text a, struct text b) {
    if (a.length != b.length) return 0;
    for (u32 i = 0; i < a.length; i++) if (a.bytes[i] != b.bytes[i]) return 0;
    return 1;
}

EXPORT("find") struct found *find(struct item *items, u32 count, u8 *bytes, u32 length) {
    static struct found answer;
    struct text name = { bytes, length };
    answer.tag = 0;
    for (u32 i = 0; i < count; i++)
        if (same(items[i].name, name)) { answer.tag = 1; answer.at = i; break; }
    return &answer;
}

/* The name, a space and the count in decimal. */
EXPORT("label") struct text *label(u8 *bytes, u32 length, u32 count) {
    static struct text answer;
    u8 digits[10];
    u32 n = 0;
    do { digits[n++] = '0' + count % 10; count /= 10; } while (count);
    u8 *text = cabi_realloc(0, 0, 1, length + 1 + n);
    for (u32 i = 0; i < length; i++) text[i] = bytes[i];
    text[length] = ' ';
    for (u32 i = 0; i < n; i++) text[length + 1 + i] = digits[n - 1 - i];
    answer.bytes = text;
    answer.length = length + 1 + n;
    return &answer;
}
