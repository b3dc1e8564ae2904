// Implements the functions of a C library that the program needs, with calls of the operating system only: the start, files, streams, arguments (`words`),
// copies of bytes and a heap. It has no threads. The parts that depend on the system are in linux.c and windows.c, which define:
//   map, unmap, remap           memory of the system, in whole pages
//   open, close, read, write    as POSIX has them, for reading and for the standard streams
//   TRIED                       a function of two answers, as the program takes them
// and which set `words`, and call `main` on a stack of STACK_BYTES, however small the system's own is.
typedef __SIZE_TYPE__ size;
typedef long long i64;

#define STACK_BYTES ((size)64 << 20)

int main(void);
void *memcpy(void *to, const void *from, size n);

static size word_count;
static const char **words;

// The error of the last call that failed, by Linux's numbers. The program tells ENOENT, EINTR and ENOMEM apart from all others.
static int error;

int rattle_errno(void) { return error; }
void rattle_set_errno(int number) { error = number; }

static int failed(int number) {
    error = number;
    return -1;
}

#ifdef _WIN32
#include "windows.c"
#else
#include "linux.c"
#endif

// Puts word i at `to` and answers its length, -1 where there is no such word, or -2 where it has more than `most` bytes.
i64 rattle_arg(size i, char *to, size most) {
    if (i >= word_count) return -1;
    size length = 0;
    for (; words[i][length]; length++) {
        if (length == most) return -2;
        to[length] = words[i][length];
    }
    return (i64)length;
}

// The environment is not read.
i64 rattle_env(const char *name, void *to, size most) { return -1; }
i64 rattle_env_at(size i, void *to, size most) { return -1; }

// Copies of bytes, as clang calls them. What a step writes was read before, and the ends are read before the first step, so that bytes may overlap.
typedef unsigned char Part __attribute__((vector_size(16), aligned(1)));
typedef unsigned long long U64 __attribute__((aligned(1)));
typedef unsigned int U32 __attribute__((aligned(1)));
#define PART sizeof(Part)
#define AT(TYPE, BYTES) (*(TYPE *)(BYTES))
// Copies the first and the last bytes of n, which overlap or touch.
#define COPY_ENDS(TYPE)                                                                              \
    do {                                                                                             \
        TYPE first = AT(const TYPE, from), last = AT(const TYPE, from + n - sizeof(TYPE));           \
        AT(TYPE, to) = first;                                                                        \
        AT(TYPE, to + n - sizeof(TYPE)) = last;                                                      \
    } while (0)

static void copy_few(char *to, const char *from, size n) {
    if (n >= sizeof(U64)) COPY_ENDS(U64);
    else if (n >= sizeof(U32)) COPY_ENDS(U32);
    else if (n > 0) {
        char first = from[0], middle = from[n / 2], last = from[n - 1];
        to[0] = first;
        to[n / 2] = middle;
        to[n - 1] = last;
    }
}

static void copy_up(char *to, const char *from, size n) {
    Part last = AT(const Part, from + n - PART);
    for (size i = 0; i + PART < n; i += PART) AT(Part, to + i) = AT(const Part, from + i);
    AT(Part, to + n - PART) = last;
}

static void copy_down(char *to, const char *from, size n) {
    Part first = AT(const Part, from);
    for (size i = n - PART; i > 0; i = i > PART ? i - PART : 0) AT(Part, to + i) = AT(const Part, from + i);
    AT(Part, to) = first;
}

void *memmove(void *to, const void *from, size n) {
    if (n < PART) copy_few(to, from, n);
    else if ((size)((char *)to - (const char *)from) >= n) copy_up(to, from, n);
    else copy_down(to, from, n);
    return to;
}

void *memcpy(void *to, const void *from, size n) { return memmove(to, from, n); }

void *memset(void *to, int value, size n) {
    char *at = to, byte = (char)value;
    if (n < PART) {
        for (size i = 0; i < n; i++) at[i] = byte;
        return to;
    }
    Part part = (Part){} + (unsigned char)byte;
    for (size i = 0; i + PART < n; i += PART) AT(Part, at + i) = part;
    AT(Part, at + n - PART) = part;
    return to;
}

// The heap. A block begins with HEAD bytes that hold its class; behind them, at a multiple of ALIGN, stand the bytes that the caller gets. Each class has
// blocks of one size, four sizes from one power of two to the next. A freed block goes on the list of its class, and is given again for that class. From
// MOST_CLASS_BYTES on a block is a mapping of its own, and holds its length, which is no class.
typedef struct Block {
    size class;
    struct Block *next;
} Block;

#define HEAD sizeof(size)
#define ALIGN ((size)16)
#define CLASSES 64
#define MOST_CLASS_BYTES ((size)1 << 16)
#define ROOM_BYTES ((size)1 << 20)
#define PAGE_BYTES ((size)1 << 12)
#define MOST_BYTES ((size)1 << 46)

static Block *freed[CLASSES];
static char *next_byte, *end_byte;

static size rounded_up(size bytes, size to) { return (bytes + to - 1) & ~(to - 1); }

// The class of the least blocks that have so many bytes, HEAD among them.
static size class_for(size bytes) {
    size last = rounded_up(bytes, ALIGN) - 1, bit = 63 - __builtin_clzll(last);
    return bit * 4 + ((last >> (bit - 2)) & 3);
}

static size bytes_of(size class) { return (class % 4 + 5) << (class / 4 - 2); }

static Block *block_of_class(size class) {
    Block *block = freed[class];
    if (block) {
        freed[class] = block->next;
        return block;
    }
    size bytes = bytes_of(class);
    if ((size)(end_byte - next_byte) < bytes) {
        char *room = map(ROOM_BYTES);
        if (!room) return 0;
        next_byte = room + ALIGN - HEAD;
        end_byte = room + ROOM_BYTES;
    }
    block = (Block *)next_byte;
    next_byte += bytes;
    block->class = class;
    return block;
}

static int is_mapped(Block *block) { return block->class >= CLASSES; }
static size mapped_for(size bytes) { return rounded_up(bytes + ALIGN, PAGE_BYTES); }

// A mapping's block stands so that what the caller gets is at a multiple of ALIGN.
static Block *block_in(char *mapping, size length) {
    if (!mapping) return 0;
    Block *block = (Block *)(mapping + ALIGN - HEAD);
    block->class = length;
    return block;
}

static void *mapping_of(Block *block) { return (char *)block - (ALIGN - HEAD); }
static void *bytes_in(Block *block) { return block ? (char *)block + HEAD : 0; }
static Block *block_at(void *bytes) { return (Block *)((char *)bytes - HEAD); }

static void *take(size bytes) {
    if (bytes >= MOST_BYTES) return 0;
    if (bytes + HEAD <= MOST_CLASS_BYTES) return bytes_in(block_of_class(class_for(bytes + HEAD)));
    return bytes_in(block_in(map(mapped_for(bytes)), mapped_for(bytes)));
}

static void give(void *at) {
    if (!at) return;
    Block *block = block_at(at);
    if (is_mapped(block)) {
        unmap(mapping_of(block), block->class);
        return;
    }
    block->next = freed[block->class];
    freed[block->class] = block;
}

// Of the `kept` bytes there as many stay as are wanted. Where there is no memory it answers 0, and all is as it was.
static void *retake(void *at, size kept, size bytes) {
    if (bytes >= MOST_BYTES) return 0;
    Block *block = block_at(at);
    int is_large = bytes + HEAD > MOST_CLASS_BYTES;
    if (is_mapped(block) && is_large) return bytes_in(block_in(remap(mapping_of(block), block->class, mapped_for(bytes)), mapped_for(bytes)));
    if (!is_large && block->class == class_for(bytes + HEAD)) return at;
    void *moved = take(bytes);
    if (!moved) return 0;
    memcpy(moved, at, kept < bytes ? kept : bytes);
    give(at);
    return moved;
}

// Each has two answers: whether there is such a block, and where. No type of the program wants more than ALIGN.
TRIED(rattle_alloc, (size bytes, size align), take(bytes))
TRIED(rattle_realloc, (void *at, size kept, size bytes, size align), retake(at, kept, bytes))
void rattle_dealloc(void *at) { give(at); }
