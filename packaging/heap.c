/* The heap of libv7 in a page, and what clang calls by itself. A block has 2^n bytes, of which the first 16 keep n; one that is freed waits
 * in a list for the next request of its size. Memory comes from the browser in pages, and is never given back. */
typedef unsigned long size_t;
typedef unsigned char byte;
typedef __int128 wide;

#define HEAD 16
#define PAGE 65536
#define MOST ((size_t)1 << 30)

extern byte __heap_base;
static byte *next, *end;
static struct block { struct block *next; } *kept[64];
/* for tests: how many blocks are out, and how many more may be asked for */
static size_t out, left = ~(size_t)0;

size_t heap_out(void) { return out; }
void heap_limit(size_t count) { left = count; }

static size_t memory_size(void) { return __builtin_wasm_memory_size(0) * PAGE; }

/* Whether memory has grown by so many bytes. That is not asked of the instruction: what it answers if it fails, -1 of 32 bits, is another
 * number after binaryen has made addresses of 32 bits. */
static int grows(size_t size) {
    size_t before = memory_size(), pages = (size + 16 * PAGE - 1) / PAGE;
    if (before + pages * PAGE > MOST) return 0;
    __builtin_wasm_memory_grow(0, pages);
    if (memory_size() != before + pages * PAGE) return 0;
    end = (byte *)memory_size();
    return 1;
}

static size_t class_of(size_t size) {
    size_t n = 5;
    while (((size_t)1 << n) < size + HEAD) n++;
    return n;
}

/* the place of a block of 2^n bytes, or 0 */
static byte *block_of(size_t n) {
    struct block *found = kept[n];
    size_t size = (size_t)1 << n;
    if (found) {
        kept[n] = found->next;
        return (byte *)found;
    }
    if (!next) {
        next = (byte *)(((size_t)&__heap_base + HEAD - 1) & ~(size_t)(HEAD - 1));
        end = (byte *)memory_size();
    }
    if (size > (size_t)(end - next) && !grows(size)) return 0;
    next += size;
    return next - size;
}

void *malloc(size_t size) {
    if (size > MOST / 2 || left == 0) return 0;
    size_t n = class_of(size);
    byte *block = block_of(n);
    if (!block) return 0;
    *(size_t *)block = n;
    left--;
    out++;
    return block + HEAD;
}

void free(void *given) {
    if (!given) return;
    struct block *block = (struct block *)((byte *)given - HEAD);
    size_t n = *(size_t *)block;
    block->next = kept[n];
    kept[n] = block;
    out--;
}

void *memcpy(void *to, const void *from, size_t size) {
    for (size_t i = 0; i < size; i++) ((byte *)to)[i] = ((const byte *)from)[i];
    return to;
}

void *memmove(void *to, const void *from, size_t size) {
    if (to < from) return memcpy(to, from, size);
    while (size--) ((byte *)to)[size] = ((const byte *)from)[size];
    return to;
}

void *memset(void *to, int value, size_t size) {
    for (size_t i = 0; i < size; i++) ((byte *)to)[i] = (byte)value;
    return to;
}

int memcmp(const void *one, const void *other, size_t size) {
    for (size_t i = 0; i < size; i++) {
        int difference = ((const byte *)one)[i] - ((const byte *)other)[i];
        if (difference) return difference;
    }
    return 0;
}

/* A block that has the room stays, which asks for nothing. */
void *realloc(void *given, size_t size) {
    if (!given) return malloc(size);
    size_t room = ((size_t)1 << *(size_t *)((byte *)given - HEAD)) - HEAD;
    if (size <= room) return given;
    void *made = malloc(size);
    if (!made) return 0;
    memcpy(made, given, room);
    free(given);
    return made;
}

/* clang calls it for a block of zeros. */
void *calloc(size_t count, size_t each) {
    if (each && count > MOST / each) return 0;
    void *made = malloc(count * each);
    return made ? memset(made, 0, count * each) : 0;
}

/* The product of two numbers of 128 bits, by halves. */
wide __multi3(wide one, wide other) {
    size_t low[2] = {(size_t)one, (size_t)other}, half[2][2];
    for (int i = 0; i < 2; i++) {
        half[i][0] = low[i] & 0xffffffff;
        half[i][1] = low[i] >> 32;
    }
    size_t first = half[0][0] * half[1][0], middle = half[0][1] * half[1][0] + (first >> 32);
    size_t more = half[0][0] * half[1][1] + (middle & 0xffffffff);
    size_t high = half[0][1] * half[1][1] + (middle >> 32) + (more >> 32) + (size_t)(one >> 64) * low[1] + low[0] * (size_t)(other >> 64);
    return (wide)high << 64 | (more << 32 | (first & 0xffffffff));
}
