/* What the program's module asks of the machine below it, for WebAssembly with 64-bit addresses: a heap, arithmetic on 128 bits and copies
   of bytes. All else that it calls is an import, which the page gives (../engine.js). It is trusted: see README.md beside it. */

typedef unsigned long size_t;
typedef unsigned char u8;
typedef unsigned long u64;
typedef __int128 i128;

/* ---- The heap: blocks whose sizes are powers of two, each with its class in the 16 bytes before it; one list of freed blocks for each class. */

enum { PAGE = 65536, FEWEST_PAGES = 16, BEFORE = 16, SMALLEST = 5, CLASSES = 48 };

struct tried {
    _Bool ok;
    void *block;
};

extern u8 __heap_base;
static u64 top, end;
static void *freed[CLASSES];
static u8 dangling[16] __attribute__((aligned(16)));

static int class_of(size_t size) {
    int class = SMALLEST;
    while (((size_t)1 << class) < size + BEFORE) class++;
    return class;
}

/* A new block of this class, from the end of what is in use; none where the memory can't grow. */
static void *cut_block(int class) {
    u64 size = (u64)1 << class;
    if (!top) {
        top = ((u64)&__heap_base + 15) & ~(u64)15;
        end = __builtin_wasm_memory_size(0) * PAGE;
    }
    if (top + size > end) {
        u64 pages = (top + size - end + PAGE - 1) / PAGE;
        if (pages < FEWEST_PAGES) pages = FEWEST_PAGES;
        if (__builtin_wasm_memory_grow(0, pages) == (size_t)-1) return 0;
        end += pages * PAGE;
    }
    void *block = (void *)top;
    top += size;
    return block;
}

struct tried rattle_alloc(size_t size, size_t alignment) {
    struct tried tried = {0, dangling};
    if (alignment > BEFORE || size > (size_t)1 << 40) return tried;
    int class = class_of(size);
    u8 *block = freed[class];
    if (block) freed[class] = *(void **)block;
    else block = cut_block(class);
    if (!block) return tried;
    *(u64 *)block = class;
    tried.ok = 1;
    tried.block = block + BEFORE;
    return tried;
}

void rattle_dealloc(void *given) {
    u8 *block = (u8 *)given - BEFORE;
    int class = *(u64 *)block;
    *(void **)block = freed[class];
    freed[class] = block;
}

struct tried rattle_realloc(void *given, size_t kept, size_t size, size_t alignment) {
    struct tried same = {1, given};
    if (size <= (size_t)1 << 40 && class_of(size) == (int)*(u64 *)((u8 *)given - BEFORE)) return same;
    struct tried tried = rattle_alloc(size, alignment);
    if (!tried.ok) return tried;
    __builtin_memcpy(tried.block, given, kept < size ? kept : size);
    rattle_dealloc(given);
    return tried;
}

/* ---- Room for the stack of a program that is kept waiting for its next line. */

static u8 kept[1 << 16] __attribute__((aligned(16)));
void *kept_stack(void) { return kept; }

/* ---- The error of the last call. */

static int last_error;
void rattle_set_errno(int error) { last_error = error; }
int rattle_errno(void) { return last_error; }

/* ---- 128 bits, of which the machine has 64. */

typedef union {
    i128 whole;
    struct { u64 low, high; };
} halves;

/* The upper half of a product. The compiler would see what this is and call __multi3 for it, which calls this: the empty assembly hides it. */
static u64 high_of_product(u64 a, u64 b) {
    u64 a0 = a & 0xffffffff, a1 = a >> 32, b0 = b & 0xffffffff, b1 = b >> 32;
    u64 low = a0 * b0, one = a1 * b0 + (low >> 32);
    __asm__("" : "+r"(one));
    u64 other = a0 * b1 + (one & 0xffffffff);
    return a1 * b1 + (one >> 32) + (other >> 32);
}

i128 __multi3(i128 a, i128 b) {
    halves x = {a}, y = {b}, product;
    product.low = x.low * y.low;
    product.high = high_of_product(x.low, y.low) + x.low * y.high + x.high * y.low;
    return product.whole;
}

i128 __ashlti3(i128 a, int by) {
    halves x = {a};
    if (by & 64) {
        x.high = x.low << (by & 63);
        x.low = 0;
    } else if (by) {
        x.high = x.high << by | x.low >> (64 - by);
        x.low <<= by;
    }
    return x.whole;
}

i128 __lshrti3(i128 a, int by) {
    halves x = {a};
    if (by & 64) {
        x.low = x.high >> (by & 63);
        x.high = 0;
    } else if (by) {
        x.low = x.low >> by | x.high << (64 - by);
        x.high >>= by;
    }
    return x.whole;
}

/* ---- Bytes, eight at a time where there are so many: WebAssembly may read and write anywhere. */

typedef u64 __attribute__((aligned(1), may_alias)) anywhere;

void *memcpy(void *to, const void *from, size_t count) {
    u8 *t = to;
    const u8 *f = from;
    for (; count >= 8; count -= 8, t += 8, f += 8) *(anywhere *)t = *(const anywhere *)f;
    while (count--) *t++ = *f++;
    return to;
}

void *memset(void *to, int byte, size_t count) {
    u8 *t = to;
    u64 eight = (u8)byte * 0x0101010101010101ul;
    for (; count >= 8; count -= 8, t += 8) *(anywhere *)t = eight;
    while (count--) *t++ = byte;
    return to;
}

void *memmove(void *to, const void *from, size_t count) {
    u8 *t = to;
    const u8 *f = from;
    if (t <= f || t >= f + count) return memcpy(to, from, count);
    for (; count >= 8; count -= 8) *(anywhere *)(t + count - 8) = *(const anywhere *)(f + count - 8);
    while (count--) t[count] = f[count];
    return to;
}

int memcmp(const void *one, const void *other, size_t count) {
    const u8 *a = one, *b = other;
    for (; count; count--, a++, b++) if (*a != *b) return *a < *b ? -1 : 1;
    return 0;
}
