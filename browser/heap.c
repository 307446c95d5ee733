/* Memory for the program in a browser: the three functions that Rattle's allocator calls, and those of C, over the
   module's own memory. A block has a power of two of octets, the first 16 of which are its header and name the power.
   Blocks that were given back stand in a list for each power; what was never used begins at `unused`. */
typedef unsigned long long u64;
typedef unsigned char u8;

enum { HEADER = 16, LEAST_POWER = 5, MOST_POWER = 40, WASM_PAGE = 65536, LEAST_GROWTH = 16 };

extern u8 __heap_base;
static u64 unused, end;
static void *given_back[MOST_POWER + 1];
/* what a refused call points to: Rattle wants a pointer that isn't null */
static u8 nowhere[16];

/* Has the module's memory grow, or returns 0. */
static int grows(u64 pages) {
    if (__builtin_wasm_memory_grow(0, pages) == (unsigned long)-1) return 0;
    end += pages * WASM_PAGE;
    return 1;
}

/* Returns whether there is memory up to `to`, and has the module's grow for it: by a quarter where that is to be had,
   since a browser may have to copy all of it to make it larger. */
static int reaches(u64 to) {
    if (to <= end) return 1;
    u64 needed = (to - end + WASM_PAGE - 1) / WASM_PAGE, wanted = end / WASM_PAGE / 4;
    if (wanted < LEAST_GROWTH) wanted = LEAST_GROWTH;
    return (wanted > needed && grows(wanted)) || grows(needed);
}

/* Returns a block for `count` octets, or 0 if there is none. */
static u8 *take(u64 count) {
    int power = LEAST_POWER;
    while (power <= MOST_POWER && ((u64)1 << power) - HEADER < count) power++;
    if (power > MOST_POWER) return 0;
    u8 *block = given_back[power];
    if (block) {
        given_back[power] = *(void **)block;
    } else {
        if (!end) {
            unused = ((u64)&__heap_base + HEADER - 1) & ~(u64)(HEADER - 1);
            end = __builtin_wasm_memory_size(0) * WASM_PAGE;
        }
        if (!reaches(unused + ((u64)1 << power))) return 0;
        block = (u8 *)unused;
        unused += (u64)1 << power;
    }
    *(u64 *)block = power;
    return block + HEADER;
}

static void give(u8 *octets) {
    u8 *block = octets - HEADER;
    u64 power = *(u64 *)block;
    *(void **)block = given_back[power];
    given_back[power] = block;
}

/* Alignments are 16 at most, which each block has. */
struct tried { u64 is_there; u8 *octets; };
static struct tried tried(u8 *octets) { return (struct tried){octets != 0, octets ? octets : nowhere}; }
struct tried rattle_alloc(u64 count, u64 alignment) { return tried(take(count ? count : alignment)); }
struct tried rattle_realloc(u8 *old, u64 kept, u64 count, u64 alignment) {
    u64 wanted = count ? count : alignment;
    if (wanted + HEADER <= (u64)1 << *(u64 *)(old - HEADER)) return tried(old);
    u8 *grown = take(wanted);
    if (grown) {
        __builtin_memcpy(grown, old, kept < wanted ? kept : wanted);
        give(old);
    }
    return tried(grown);
}
void rattle_dealloc(u8 *octets) { give(octets); }
void *malloc(u64 count) { return take(count ? count : 1); }
void free(void *octets) {
    if (octets) give(octets);
}

/* Products and shifts of 128 bits, for which WebAssembly has no instruction. */
typedef unsigned __int128 u128;
typedef union { u128 all; struct { u64 low, high; } half; } wide;

u128 __multi3(u128 left, u128 right) {
    wide x, y, product;
    x.all = left;
    y.all = right;
    u64 x0 = x.half.low & 0xFFFFFFFF, x1 = x.half.low >> 32, y0 = y.half.low & 0xFFFFFFFF, y1 = y.half.low >> 32;
    u64 low = x0 * y0, first = x0 * y1, second = x1 * y0;
    u64 middle = (low >> 32) + (first & 0xFFFFFFFF) + (second & 0xFFFFFFFF);
    product.half.low = (low & 0xFFFFFFFF) | middle << 32;
    product.half.high = x1 * y1 + (first >> 32) + (second >> 32) + (middle >> 32);
    product.half.high += x.half.low * y.half.high + x.half.high * y.half.low;
    return product.all;
}

u128 __lshrti3(u128 value, int by) {
    wide x, shifted;
    x.all = value;
    if (by == 0) return value;
    shifted.half.low = by & 64 ? x.half.high >> (by & 63) : x.half.low >> by | x.half.high << (64 - by);
    shifted.half.high = by & 64 ? 0 : x.half.high >> by;
    return shifted.all;
}

u128 __ashlti3(u128 value, int by) {
    wide x, shifted;
    x.all = value;
    if (by == 0) return value;
    shifted.half.high = by & 64 ? x.half.low << (by & 63) : x.half.high << by | x.half.low >> (64 - by);
    shifted.half.low = by & 64 ? 0 : x.half.low << by;
    return shifted.all;
}
