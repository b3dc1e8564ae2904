// The functions of a C library that the program needs, for a WebAssembly module: a heap in the module's memory, and files, streams and
// arguments that the host of the module gives. The host's functions return a number from 0 on, or the negative of an error's number.
typedef __SIZE_TYPE__ size;
typedef long long i64;

#define HOST(NAME) __attribute__((import_module("host"), import_name(NAME)))

HOST("open") extern int host_open(const char *name);
HOST("close") extern int host_close(int file);
HOST("read") extern i64 host_read(int file, void *to, size most);
HOST("write") extern i64 host_write(int file, const void *from, size count);
// Puts word i at `to` and answers its length, -1 where there is no such word, or -2 where it has more than `most` bytes.
HOST("word") extern i64 host_word(size i, void *to, size most);

// The error of the last call that failed.
static int error;

static i64 told(i64 answer) {
    if (answer >= 0) return answer;
    error = (int)-answer;
    return -1;
}

int rattle_errno(void) { return error; }
void rattle_set_errno(int number) { error = number; }
int open(const char *name, int flags, ...) { return (int)told(host_open(name)); }
int close(int file) { return (int)told(host_close(file)); }
i64 read(int file, void *to, size most) { return told(host_read(file, to, most)); }
i64 write(int file, const void *from, size count) { return told(host_write(file, from, count)); }

// Word 0 is the program's own name.
i64 rattle_arg(size i, void *to, size most) { return host_word(i, to, most); }

// There is no environment, and there are no signals.
i64 rattle_env(const char *name, void *to, size most) { return -1; }
i64 rattle_env_at(size i, void *to, size most) { return -1; }
i64 __sysv_signal(int signal, i64 action) { return 0; }

// The heap. A block has a size class: 32 or 48 bytes, or one of these times a power of two. Before what the caller gets stand 16
// bytes, of which the first word is the class. A freed block goes on the list of its class, and is given again for the same class.
typedef struct Block {
    size class;
    struct Block *next;
} Block;

typedef struct {
    size ok;
    void *at;
} Tried;

#define CLASSES 80
#define HEAD 16
#define PAGE 65536
#define GROW_PAGES 16

extern unsigned char __heap_base;
static Block *freed[CLASSES];
static size next_byte, end_byte;

static size bytes_of(size class) { return (size)(class & 1 ? 48 : 32) << (class >> 1); }

static size class_for(size bytes) {
    if (bytes <= 32) return 0;
    // The highest bit of bytes - 1 tells the power of two just below.
    size bit = 63 - __builtin_clzll(bytes - 1);
    size below = (bit - 5) * 2;
    return bytes <= bytes_of(below + 1) ? below + 1 : below + 2;
}

// The linker gives the memory its bound, past which it does not grow.
static int make_room(size bytes) {
    if (next_byte == 0) {
        next_byte = ((size)&__heap_base + 15) & ~(size)15;
        end_byte = __builtin_wasm_memory_size(0) * PAGE;
    }
    if (end_byte - next_byte >= bytes) return 1;
    size pages = (bytes - (end_byte - next_byte) + PAGE - 1) / PAGE;
    size more = pages < GROW_PAGES ? GROW_PAGES : pages;
    if (__builtin_wasm_memory_grow(0, more) == (size)-1) {
        more = pages;
        if (__builtin_wasm_memory_grow(0, more) == (size)-1) return 0;
    }
    end_byte += more * PAGE;
    return 1;
}

static Block *block_for(size bytes) {
    if (bytes >= (size)1 << 40) return 0;
    size class = class_for(bytes + HEAD);
    Block *block = freed[class];
    if (block) {
        freed[class] = block->next;
        return block;
    }
    if (!make_room(bytes_of(class))) return 0;
    block = (Block *)next_byte;
    next_byte += bytes_of(class);
    block->class = class;
    return block;
}

static void *bytes_in(Block *block) { return block ? (unsigned char *)block + HEAD : 0; }
static Block *block_at(void *at) { return (Block *)((unsigned char *)at - HEAD); }

Tried rattle_alloc(size bytes, size align) {
    void *at = bytes_in(block_for(bytes));
    return (Tried){at != 0, at};
}

void rattle_dealloc(void *at) {
    if (!at) return;
    Block *block = block_at(at);
    block->next = freed[block->class];
    freed[block->class] = block;
}

Tried rattle_realloc(void *at, size kept, size bytes, size align) {
    if (bytes < (size)1 << 40 && bytes + HEAD <= bytes_of(block_at(at)->class)) return (Tried){1, at};
    void *moved = bytes_in(block_for(bytes));
    if (!moved) return (Tried){0, at};
    __builtin_memcpy(moved, at, kept < bytes ? kept : bytes);
    rattle_dealloc(at);
    return (Tried){1, moved};
}

// The functions that clang calls for numbers of 128 bits.
typedef unsigned long long u64;
typedef unsigned __int128 u128;

static u64 high_of(u128 value) { return (u64)(value >> 64); }
static u128 of_halves(u64 high, u64 low) { return (u128)high << 64 | low; }

u128 __ashlti3(u128 value, int by) {
    u64 low = (u64)value;
    if (by == 0) return value;
    return by < 64 ? of_halves(high_of(value) << by | low >> (64 - by), low << by) : of_halves(low << (by - 64), 0);
}

u128 __lshrti3(u128 value, int by) {
    u64 low = (u64)value, high = high_of(value);
    if (by == 0) return value;
    return by < 64 ? of_halves(high >> by, low >> by | high << (64 - by)) : of_halves(0, high >> (by - 64));
}

// The low 128 bits of a product, by those of halves of 32 bits.
u128 __multi3(u128 one, u128 other) {
    u64 mask = 0xffffffff, a = (u64)one, b = (u64)other;
    u64 low = (a & mask) * (b & mask);
    u64 left = (a >> 32) * (b & mask) + (low >> 32);
    u64 right = (a & mask) * (b >> 32) + (left & mask);
    u64 high = (a >> 32) * (b >> 32) + (left >> 32) + (right >> 32);
    return of_halves(high + a * high_of(other) + high_of(one) * b, right << 32 | (low & mask));
}
