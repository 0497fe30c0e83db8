// What the program's code calls of C where it runs in a page: memory, the words of its command, and the standard streams.
//
// Memory is the module's own, which grows as it is asked for. Words and streams are the host's, which supplies four functions under the
// module name `host`; program.js does. There are no files, no environment and no terminal.

typedef unsigned long long u64;
typedef long long i64;

// ---- The host ----

#define HOST(name) __attribute__((import_module("host"), import_name(#name)))

// Puts the next bytes of standard input at the start of a buffer, and answers how many; 0 at the end.
HOST(read) i64 host_read(unsigned char *buffer, u64 length);
// Takes bytes for standard output, 1, or standard error, 2, and answers how many.
HOST(write) i64 host_write(int stream, const unsigned char *buffer, u64 length);
// How many words the command has, the program's name among them.
HOST(word_count) u64 host_word_count(void);
// Puts a word at the start of a buffer, and answers its length: -1 where there is no such word, -2 where it does not fit.
HOST(word) i64 host_word(u64 place, unsigned char *buffer, u64 length);

enum { NO_STREAM = 9, NO_SEEK = 29, NO_TERMINAL = 25 }; // EBADF, ESPIPE, ENOTTY of Linux

static int last_error;

static int fails(int error) {
    last_error = error;
    return -1;
}

i64 read(int stream, unsigned char *buffer, u64 length) {
    return stream == 0 ? host_read(buffer, length) : fails(NO_STREAM);
}

i64 write(int stream, const unsigned char *buffer, u64 length) {
    return stream == 1 || stream == 2 ? host_write(stream, buffer, length) : fails(NO_STREAM);
}

i64 lseek(int stream, i64 offset, int origin) {
    return fails(NO_SEEK);
}

int isatty(int stream) {
    fails(NO_TERMINAL);
    return 0;
}

// How signals are to be met; there are none.
u64 __sysv_signal(int signal, u64 handler) {
    return 0;
}

int rattle_errno(void) {
    return last_error;
}

void rattle_set_errno(int error) {
    last_error = error;
}

u64 rattle_arg_count(void) {
    return host_word_count();
}

i64 rattle_arg(u64 place, unsigned char *buffer, u64 length) {
    return host_word(place, buffer, length);
}

// ---- Numbers of 128 bits ----
//
// LLVM calls these, under the names of its own library, which a page has not: a product, and shifts by a number below 128.

typedef unsigned __int128 u128;

union halves {
    u128 whole;
    struct {
        u64 low, high;
    } half;
};

u128 __ashlti3(u128 number, int by) {
    union halves from = {number}, to = {number};
    if (by >= 64) {
        to.half.high = from.half.low << (by - 64);
        to.half.low = 0;
    } else if (by > 0) {
        to.half.high = from.half.high << by | from.half.low >> (64 - by);
        to.half.low = from.half.low << by;
    }
    return to.whole;
}

u128 __lshrti3(u128 number, int by) {
    union halves from = {number}, to = {number};
    if (by >= 64) {
        to.half.low = from.half.high >> (by - 64);
        to.half.high = 0;
    } else if (by > 0) {
        to.half.low = from.half.low >> by | from.half.high << (64 - by);
        to.half.high = from.half.high >> by;
    }
    return to.whole;
}

// By halves of 32 bits; it is not optimised, so that it is not seen to be a product, which would call it.
__attribute__((optnone, noinline)) u128 __multi3(u128 one, u128 other) {
    union halves a = {one}, b = {other}, product;
    u64 mask = 0xffffffff;
    u64 a0 = a.half.low & mask, a1 = a.half.low >> 32, b0 = b.half.low & mask, b1 = b.half.low >> 32;
    u64 middle = (a0 * b0 >> 32) + (a0 * b1 & mask) + (a1 * b0 & mask);
    product.half.low = a.half.low * b.half.low;
    product.half.high = a1 * b1 + (a0 * b1 >> 32) + (a1 * b0 >> 32) + (middle >> 32) + a.half.low * b.half.high + a.half.high * b.half.low;
    return product.whole;
}

// ---- Memory ----
//
// A block is a header, which names its size class, and the bytes behind it, which are handed out. The classes grow by an eighth to a quarter: 32,
// 48, 64, 80, 96, 112, 128, 160 bytes and so on, all of them multiples of 16. A block that is given back waits for the next of its class.

enum { HEADER = 16, SMALLEST = 32, STEPS = 4, CLASSES = 160, PAGE = 65536 };

#define MOST_BYTES ((u64)1 << 40)

typedef struct Block {
    u64 class;
    struct Block *next; // of a block that waits
} Block;

// What is answered where memory is asked for: whether there is some, and where; where there is none a byte that nobody owns.
typedef struct {
    _Bool ok;
    void *bytes;
} Tried;

extern unsigned char __heap_base;

static Block *waiting[CLASSES];
static u64 unused; // the first address that no block has had yet
static unsigned char nothing;

static u64 multiple_of_16(u64 number) {
    return (number + 15) & ~(u64)15;
}

static u64 size_of_class(u64 class) {
    return multiple_of_16((u64)(SMALLEST / STEPS) * (STEPS + class % STEPS) << class / STEPS);
}

// The least class whose blocks have room for so many bytes and the header.
static u64 class_for(u64 bytes) {
    u64 octave = 63 - __builtin_clzll((bytes + HEADER) / SMALLEST | 1);
    u64 class = STEPS * octave;
    while (size_of_class(class) < bytes + HEADER) {
        class++;
    }
    return class;
}

// Whether memory reaches up to an address. It is grown where it does not, by an eighth where it can, so that it seldom grows.
static _Bool reaches(u64 end) {
    u64 pages = __builtin_wasm_memory_size(0), wanted = (end + PAGE - 1) / PAGE;
    if (wanted <= pages) {
        return 1;
    }
    return __builtin_wasm_memory_grow(0, wanted - pages + pages / 8) != (u64)-1
        || __builtin_wasm_memory_grow(0, wanted - pages) != (u64)-1;
}

static void *allocate(u64 bytes) {
    if (bytes > MOST_BYTES) {
        return 0;
    }
    u64 class = class_for(bytes);
    Block *block = waiting[class];
    if (block) {
        waiting[class] = block->next;
        return block + 1;
    }
    unused = unused ? unused : multiple_of_16((u64)&__heap_base);
    if (!reaches(unused + size_of_class(class))) {
        return 0;
    }
    block = (Block *)unused;
    unused += size_of_class(class);
    block->class = class;
    return block + 1;
}

static Tried tried(void *bytes) {
    return (Tried){bytes != 0, bytes ? bytes : &nothing};
}

// Memory for so many bytes, or for as many as the alignment says where these are none. Every block is aligned to 16.
Tried rattle_alloc(u64 bytes, u64 alignment) {
    return tried(allocate(bytes ? bytes : alignment));
}

void rattle_dealloc(void *bytes) {
    Block *block = (Block *)bytes - 1;
    block->next = waiting[block->class];
    waiting[block->class] = block;
}

// Other room for what a block holds: so many bytes are kept of it.
Tried rattle_realloc(void *bytes, u64 kept, u64 wanted, u64 alignment) {
    wanted = wanted ? wanted : alignment;
    if (wanted <= MOST_BYTES && class_for(wanted) == ((Block *)bytes - 1)->class) {
        return tried(bytes);
    }
    void *moved = allocate(wanted);
    if (moved) {
        __builtin_memcpy(moved, bytes, kept);
        rattle_dealloc(bytes);
    }
    return tried(moved);
}
