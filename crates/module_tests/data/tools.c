/* The origin of the compiled module of the tests: checksums, sorting, texts, a store of blocks, a small machine and
 * others, in C without floats and without a library. The data is made once, by
 *
 *   clang --target=wasm32 -nostdlib -ffreestanding -O1 -mbulk-memory -msign-ext \
 *     -Wl,--no-entry,--strip-all,--compress-relocations,-z,stack-size=4096 -o tools.wasm tools.c
 */

typedef unsigned char u8;
typedef unsigned short u16;
typedef unsigned int u32;
typedef unsigned long long u64;
typedef signed char s8;
typedef short s16;
typedef int s32;
typedef long long s64;

#define EXPORT(name) __attribute__((export_name(name)))

/* Imports. */

__attribute__((import_module("host"), import_name("tell"))) void tell(u32 place, u32 count);
__attribute__((import_module("host"), import_name("clock"))) u64 host_clock(void);

/* A store of blocks over the memory behind the data. */

extern u8 __heap_base;

static u32 heap_next;

EXPORT("reserve")
u32 reserve(u32 size)
{
    if (heap_next == 0)
        heap_next = ((u32)&__heap_base + 15) & ~15u;
    u32 start = heap_next;
    u32 end = start + ((size + 15) & ~15u);
    if (end < start)
        return 0;
    u32 pages = __builtin_wasm_memory_size(0);
    u32 wanted = (end + 65535) >> 16;
    if (wanted > pages && __builtin_wasm_memory_grow(0, wanted - pages) == (u32)-1)
        return 0;
    heap_next = end;
    return start;
}

EXPORT("release_all")
void release_all(void)
{
    heap_next = 0;
}

/* Bytes. */

EXPORT("fill")
void fill(u8 *to, u32 byte, u32 count)
{
    __builtin_memset(to, (int)byte, count);
}

EXPORT("copy")
void copy(u8 *to, const u8 *from, u32 count)
{
    __builtin_memmove(to, from, count);
}

EXPORT("compare")
s32 compare(const u8 *a, const u8 *b, u32 count)
{
    for (u32 i = 0; i < count; i++)
        if (a[i] != b[i])
            return (s32)a[i] - (s32)b[i];
    return 0;
}

EXPORT("find_byte")
u32 find_byte(const u8 *text, u32 count, u32 byte)
{
    u32 i = 0;
    while (i < count && text[i] != (u8)byte)
        i++;
    return i;
}

EXPORT("reverse")
void reverse(u8 *bytes, u32 count)
{
    for (u32 i = 0; i + i + 1 < count; i++) {
        u8 kept = bytes[i];
        bytes[i] = bytes[count - 1 - i];
        bytes[count - 1 - i] = kept;
    }
}

/* Checksums. */

static u32 crc_table[256];
static u32 crc_is_made;

static void make_crc_table(void)
{
    for (u32 n = 0; n < 256; n++) {
        u32 c = n;
        for (u32 k = 0; k < 8; k++)
            c = (c & 1) ? 0xEDB88320u ^ (c >> 1) : c >> 1;
        crc_table[n] = c;
    }
    crc_is_made = 1;
}

EXPORT("crc32")
u32 crc32(const u8 *bytes, u32 count)
{
    if (!crc_is_made)
        make_crc_table();
    u32 crc = ~0u;
    for (u32 i = 0; i < count; i++)
        crc = crc_table[(crc ^ bytes[i]) & 255] ^ (crc >> 8);
    return ~crc;
}

EXPORT("adler32")
u32 adler32(const u8 *bytes, u32 count)
{
    u32 a = 1, b = 0;
    for (u32 i = 0; i < count; i++) {
        a = (a + bytes[i]) % 65521;
        b = (b + a) % 65521;
    }
    return (b << 16) | a;
}

EXPORT("fnv64")
u64 fnv64(const u8 *bytes, u32 count)
{
    u64 hash = 14695981039346656037ull;
    for (u32 i = 0; i < count; i++)
        hash = (hash ^ bytes[i]) * 1099511628211ull;
    return hash;
}

static u32 rotate_right(u32 x, u32 n)
{
    return (x >> n) | (x << (32 - n));
}

static const u32 sha_rounds[64] = {
    0x428a2f98, 0x71374491, 0xb5c0fbcf, 0xe9b5dba5, 0x3956c25b, 0x59f111f1, 0x923f82a4, 0xab1c5ed5,
    0xd807aa98, 0x12835b01, 0x243185be, 0x550c7dc3, 0x72be5d74, 0x80deb1fe, 0x9bdc06a7, 0xc19bf174,
    0xe49b69c1, 0xefbe4786, 0x0fc19dc6, 0x240ca1cc, 0x2de92c6f, 0x4a7484aa, 0x5cb0a9dc, 0x76f988da,
    0x983e5152, 0xa831c66d, 0xb00327c8, 0xbf597fc7, 0xc6e00bf3, 0xd5a79147, 0x06ca6351, 0x14292967,
    0x27b70a85, 0x2e1b2138, 0x4d2c6dfc, 0x53380d13, 0x650a7354, 0x766a0abb, 0x81c2c92e, 0x92722c85,
    0xa2bfe8a1, 0xa81a664b, 0xc24b8b70, 0xc76c51a3, 0xd192e819, 0xd6990624, 0xf40e3585, 0x106aa070,
    0x19a4c116, 0x1e376c08, 0x2748774c, 0x34b0bcb5, 0x391c0cb3, 0x4ed8aa4a, 0x5b9cca4f, 0x682e6ff3,
    0x748f82ee, 0x78a5636f, 0x84c87814, 0x8cc70208, 0x90befffa, 0xa4506ceb, 0xbef9a3f7, 0xc67178f2,
};

static void sha_block(u32 *state, const u8 *block)
{
    u32 w[64];
    for (u32 i = 0; i < 16; i++)
        w[i] = (u32)block[4 * i] << 24 | (u32)block[4 * i + 1] << 16 | (u32)block[4 * i + 2] << 8 | block[4 * i + 3];
    for (u32 i = 16; i < 64; i++) {
        u32 a = rotate_right(w[i - 15], 7) ^ rotate_right(w[i - 15], 18) ^ (w[i - 15] >> 3);
        u32 b = rotate_right(w[i - 2], 17) ^ rotate_right(w[i - 2], 19) ^ (w[i - 2] >> 10);
        w[i] = w[i - 16] + a + w[i - 7] + b;
    }
    u32 s[8];
    for (u32 i = 0; i < 8; i++)
        s[i] = state[i];
    for (u32 i = 0; i < 64; i++) {
        u32 e = rotate_right(s[4], 6) ^ rotate_right(s[4], 11) ^ rotate_right(s[4], 25);
        u32 t = s[7] + e + ((s[4] & s[5]) ^ (~s[4] & s[6])) + sha_rounds[i] + w[i];
        u32 a = rotate_right(s[0], 2) ^ rotate_right(s[0], 13) ^ rotate_right(s[0], 22);
        u32 m = a + ((s[0] & s[1]) ^ (s[0] & s[2]) ^ (s[1] & s[2]));
        for (u32 k = 7; k > 0; k--)
            s[k] = s[k - 1];
        s[4] += t;
        s[0] = t + m;
    }
    for (u32 i = 0; i < 8; i++)
        state[i] += s[i];
}

EXPORT("sha256")
void sha256(const u8 *bytes, u32 count, u8 *digest)
{
    u32 state[8] = {0x6a09e667, 0xbb67ae85, 0x3c6ef372, 0xa54ff53a, 0x510e527f, 0x9b05688c, 0x1f83d9ab, 0x5be0cd19};
    u32 at = 0;
    for (; at + 64 <= count; at += 64)
        sha_block(state, bytes + at);
    u8 last[128];
    u32 left = count - at;
    fill(last, 0, 128);
    copy(last, bytes + at, left);
    last[left] = 0x80;
    u32 end = left < 56 ? 64 : 128;
    u64 bits = (u64)count * 8;
    for (u32 i = 0; i < 8; i++)
        last[end - 1 - i] = (u8)(bits >> (8 * i));
    for (u32 i = 0; i < end; i += 64)
        sha_block(state, last + i);
    for (u32 i = 0; i < 32; i++)
        digest[i] = (u8)(state[i / 4] >> (24 - 8 * (i % 4)));
}

/* Sorting, by a comparison that is called through the table. */

typedef s32 (*order)(s32, s32);

static s32 rising(s32 a, s32 b)
{
    return a < b ? -1 : a > b;
}

static s32 falling(s32 a, s32 b)
{
    return a > b ? -1 : a < b;
}

static s32 by_size(s32 a, s32 b)
{
    u32 x = a < 0 ? 0u - (u32)a : (u32)a;
    u32 y = b < 0 ? 0u - (u32)b : (u32)b;
    return x < y ? -1 : x > y;
}

static const order orders[3] = {rising, falling, by_size};

static void sift(s32 *xs, u32 from, u32 count, order less)
{
    u32 root = from;
    while (2 * root + 1 < count) {
        u32 child = 2 * root + 1;
        if (child + 1 < count && less(xs[child], xs[child + 1]) < 0)
            child++;
        if (less(xs[root], xs[child]) >= 0)
            return;
        s32 kept = xs[root];
        xs[root] = xs[child];
        xs[child] = kept;
        root = child;
    }
}

EXPORT("sort")
u32 sort(s32 *xs, u32 count, u32 which)
{
    if (which >= 3)
        return 0;
    order less = orders[which];
    for (u32 i = count / 2; i > 0; i--)
        sift(xs, i - 1, count, less);
    for (u32 end = count; end > 1; end--) {
        s32 kept = xs[0];
        xs[0] = xs[end - 1];
        xs[end - 1] = kept;
        sift(xs, 0, end - 1, less);
    }
    return 1;
}

EXPORT("search")
s32 search(const s32 *xs, u32 count, s32 x)
{
    u32 low = 0, high = count;
    while (low < high) {
        u32 middle = low + (high - low) / 2;
        if (xs[middle] < x)
            low = middle + 1;
        else
            high = middle;
    }
    return low < count && xs[low] == x ? (s32)low : -1;
}

/* Numbers. */

EXPORT("gcd")
u64 gcd(u64 a, u64 b)
{
    while (b) {
        u64 r = a % b;
        a = b;
        b = r;
    }
    return a;
}

EXPORT("power")
u64 power(u64 base, u64 exponent, u64 modulus)
{
    u64 result = 1 % modulus;
    base %= modulus;
    for (; exponent; exponent >>= 1) {
        if (exponent & 1)
            result = result * base % modulus;
        base = base * base % modulus;
    }
    return result;
}

EXPORT("root")
u32 root(u64 n)
{
    u64 low = 0, high = 4294967296ull;
    while (high - low > 1) {
        u64 middle = (low + high) / 2;
        if (middle * middle <= n)
            low = middle;
        else
            high = middle;
    }
    return (u32)low;
}

EXPORT("bits")
u32 bits(u64 n, u32 what)
{
    switch (what) {
    case 0: return (u32)__builtin_popcountll(n);
    case 1: return n ? (u32)__builtin_clzll(n) : 64;
    case 2: return n ? (u32)__builtin_ctzll(n) : 64;
    case 3: return (u32)__builtin_popcount((u32)n);
    case 4: return (u32)n ? (u32)__builtin_clz((u32)n) : 32;
    case 5: return (u32)n ? (u32)__builtin_ctz((u32)n) : 32;
    case 6: return (u32)(s32)(s8)n;
    case 7: return (u32)(s32)(s16)n;
    case 8: return (u32)((u64)(s64)(s32)n >> 32);
    default: return ~0u;
    }
}

EXPORT("divide")
s64 divide(s64 a, s64 b)
{
    if (b == 0)
        __builtin_trap();
    s64 q = a / b;
    return a % b != 0 && (a < 0) != (b < 0) ? q - 1 : q;
}

EXPORT("wide")
u64 wide(const u8 *from)
{
    const s8 *bytes = (const s8 *)from;
    const s16 *halves = (const s16 *)from;
    const u16 *naturals = (const u16 *)from;
    const s32 *words = (const s32 *)from;
    return (u64)(s64)bytes[0] + from[1] + (u64)(s64)halves[1] + naturals[2] + (u64)(s64)words[2] + *(const u32 *)(from + 12);
}

EXPORT("narrow")
void narrow(u8 *to, u64 n)
{
    to[0] = (u8)n;
    *(u16 *)(to + 2) = (u16)(n >> 8);
    *(u32 *)(to + 4) = (u32)(n >> 24);
    *(u64 *)(to + 8) = n;
}

static u64 random_state = 88172645463325252ull;

EXPORT("random")
u64 random_next(void)
{
    u64 x = random_state;
    x ^= x << 13;
    x ^= x >> 7;
    x ^= x << 17;
    return random_state = x;
}

/* Texts. */

EXPORT("decimal")
u32 decimal(s64 n, u8 *to)
{
    u64 left = n < 0 ? 0ull - (u64)n : (u64)n;
    u32 count = 0;
    do {
        to[count++] = (u8)('0' + left % 10);
        left /= 10;
    } while (left);
    if (n < 0)
        to[count++] = '-';
    reverse(to, count);
    return count;
}

EXPORT("number")
s64 number(const u8 *text, u32 count)
{
    u32 at = 0;
    s64 sign = 1;
    if (at < count && (text[at] == '-' || text[at] == '+'))
        sign = text[at++] == '-' ? -1 : 1;
    s64 n = 0;
    for (; at < count && text[at] >= '0' && text[at] <= '9'; at++)
        n = n * 10 + (text[at] - '0');
    return sign * n;
}

static const u8 letters[65] = "ABCDEFGHIJKLMNOPQRSTUVWXYZabcdefghijklmnopqrstuvwxyz0123456789+/";

EXPORT("base64")
u32 base64(const u8 *from, u32 count, u8 *to)
{
    u32 out = 0;
    for (u32 i = 0; i < count; i += 3) {
        u32 left = count - i;
        u32 three = (u32)from[i] << 16 | (left > 1 ? (u32)from[i + 1] << 8 : 0) | (left > 2 ? from[i + 2] : 0);
        to[out++] = letters[three >> 18];
        to[out++] = letters[three >> 12 & 63];
        to[out++] = left > 1 ? letters[three >> 6 & 63] : '=';
        to[out++] = left > 2 ? letters[three & 63] : '=';
    }
    return out;
}

EXPORT("utf8")
u32 utf8(const u8 *text, u32 count)
{
    u32 characters = 0;
    for (u32 i = 0; i < count; characters++) {
        u32 more = text[i] < 0x80 ? 0 : text[i] < 0xE0 ? 1 : text[i] < 0xF0 ? 2 : 3;
        for (u32 k = 1; k <= more; k++)
            if (i + k >= count || (text[i + k] & 0xC0) != 0x80)
                return ~0u;
        i += more + 1;
    }
    return characters;
}

/* A machine of numbers: each operation is a byte, and its operand the eight bytes behind it. */

enum { PUSH, ADD, SUBTRACT, MULTIPLY, DIVIDE, SWAP, DUPLICATE, DISCARD, JUMP, JUMP_IF, LESS, TELL, STOP };

EXPORT("machine")
s64 machine(const u8 *code, u32 size, u32 fuel)
{
    s64 stack[32];
    u32 top = 0;
    u32 at = 0;
    for (; fuel > 0 && at < size; fuel--) {
        s64 *last = stack + top - 1;
        switch (code[at++]) {
        case PUSH:
            if (top == 32 || size - at < 8)
                return -1;
            stack[top++] = *(const s64 *)(code + at);
            at += 8;
            break;
        case ADD:
            if (top < 2)
                return -2;
            last[-1] += *last;
            top--;
            break;
        case SUBTRACT:
            if (top < 2)
                return -2;
            last[-1] -= *last;
            top--;
            break;
        case MULTIPLY:
            if (top < 2)
                return -2;
            last[-1] *= *last;
            top--;
            break;
        case DIVIDE:
            if (top < 2 || *last == 0)
                return -3;
            last[-1] = divide(last[-1], *last);
            top--;
            break;
        case SWAP:
            if (top < 2)
                return -2;
            last[-1] ^= *last;
            *last ^= last[-1];
            last[-1] ^= *last;
            break;
        case DUPLICATE:
            if (top < 1 || top == 32)
                return -2;
            stack[top++] = *last;
            break;
        case DISCARD:
            if (top < 1)
                return -2;
            top--;
            break;
        case JUMP:
            at = (u32)*(const s64 *)(code + at);
            break;
        case JUMP_IF:
            if (top < 1)
                return -2;
            top--;
            at = stack[top] ? (u32)*(const s64 *)(code + at) : at + 8;
            break;
        case LESS:
            if (top < 2)
                return -2;
            last[-1] = last[-1] < *last;
            top--;
            break;
        case TELL:
            tell((u32)code, at);
            break;
        case STOP:
            return top ? *last : 0;
        default:
            return -4;
        }
    }
    return -5;
}

/* A board of cells that live and die. */

static u8 board[2][32][32];
static u32 generation;

static u32 neighbours(u32 row, u32 column)
{
    u32 count = 0;
    for (u32 i = 31; i <= 33; i++)
        for (u32 j = 31; j <= 33; j++)
            if (i != 32 || j != 32)
                count += board[generation & 1][(row + i) & 31][(column + j) & 31];
    return count;
}

EXPORT("live")
u32 live(u32 steps)
{
    u32 alive = 0;
    for (; steps > 0; steps--) {
        alive = 0;
        for (u32 row = 0; row < 32; row++)
            for (u32 column = 0; column < 32; column++) {
                u32 n = neighbours(row, column);
                u8 next = n == 3 || (n == 2 && board[generation & 1][row][column]);
                board[~generation & 1][row][column] = next;
                alive += next;
            }
        generation++;
    }
    return alive;
}

EXPORT("seed")
void seed(void)
{
    random_state = host_clock() | 1;
    for (u32 row = 0; row < 32; row++)
        for (u32 column = 0; column < 32; column++)
            board[generation & 1][row][column] = random_next() >> 62 == 0;
}
