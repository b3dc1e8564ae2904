// The part of host.c that depends on the system, for Linux on x86-64 and on ARM64: it uses only system calls of Linux.
#if defined(__x86_64__)
enum { READ = 0, WRITE = 1, CLOSE = 3, MMAP = 9, MPROTECT = 10, MUNMAP = 11, SIGACTION = 13, MREMAP = 25, EXIT_GROUP = 231, OPENAT = 257, PRLIMIT = 302 };
__asm__(".globl _start\n_start: xor %ebp, %ebp\n mov %rsp, %rdi\n and $-16, %rsp\n call begin\n");
#define FINISH_ON(TOP) __asm__ volatile("mov %0, %%rsp\n call finish\n" : : "r"(TOP))

static i64 call(i64 number, i64 a, i64 b, i64 c, i64 d, i64 e, i64 f) {
    register i64 r10 __asm__("r10") = d, r8 __asm__("r8") = e, r9 __asm__("r9") = f;
    __asm__ volatile("syscall" : "+a"(number) : "D"(a), "S"(b), "d"(c), "r"(r10), "r"(r8), "r"(r9) : "rcx", "r11", "memory");
    return number;
}

// By this a program for x86-64-v2 asks at its start what the processor can do: what it tells of its leaves 1 and 0x80000001, under 0 and 2.
typedef struct {
    unsigned told[4], usable[4];
} Features;

const Features *__x86_get_cpuid_feature_leaf(unsigned which) {
    static Features features[2], none;
    if (which != 0 && which != 2) return &none;
    unsigned *it = features[which / 2].usable;
    __asm__("cpuid" : "=a"(it[0]), "=b"(it[1]), "=c"(it[2]), "=d"(it[3]) : "a"(which == 0 ? 1 : 0x80000001), "c"(0));
    return &features[which / 2];
}
#elif defined(__aarch64__)
enum { OPENAT = 56, CLOSE = 57, READ = 63, WRITE = 64, EXIT_GROUP = 94, SIGACTION = 134, MUNMAP = 215, MREMAP = 216, MMAP = 222, MPROTECT = 226, PRLIMIT = 261 };
__asm__(".globl _start\n_start: mov x29, #0\n mov x30, #0\n mov x0, sp\n bl begin\n");
#define FINISH_ON(TOP) __asm__ volatile("mov sp, %0\n bl finish\n" : : "r"(TOP))

static i64 call(i64 number, i64 a, i64 b, i64 c, i64 d, i64 e, i64 f) {
    register i64 x8 __asm__("x8") = number, x0 __asm__("x0") = a, x1 __asm__("x1") = b, x2 __asm__("x2") = c;
    register i64 x3 __asm__("x3") = d, x4 __asm__("x4") = e, x5 __asm__("x5") = f;
    __asm__ volatile("svc #0" : "+r"(x0) : "r"(x8), "r"(x1), "r"(x2), "r"(x3), "r"(x4), "r"(x5) : "memory");
    return x0;
}
#endif

typedef struct {
    size is_there;
    void *at;
} Tried;
#define TRIED(NAME, PARAMETERS, WORK)              \
    Tried NAME PARAMETERS {                        \
        void *found = WORK;                          \
        return (Tried){.is_there = found != 0, found}; \
    }

// An answer of the system between these is the negative of an error's number.
#define IS_ERROR(ANSWER) ((ANSWER) < 0 && (ANSWER) >= -4095)

static i64 told(i64 answer) { return IS_ERROR(answer) ? failed((int)-answer) : answer; }

enum { HERE = -100 };
int open(const char *name, int flags, ...) { return (int)told(call(OPENAT, HERE, (i64)name, flags, 0, 0, 0)); }
int close(int file) { return (int)told(call(CLOSE, file, 0, 0, 0, 0, 0)); }
i64 read(int file, void *to, size most) { return told(call(READ, file, (i64)to, most, 0, 0, 0)); }
i64 write(int file, const void *from, size count) { return told(call(WRITE, file, (i64)from, count, 0, 0, 0)); }
i64 __write(int file, const void *from, size count) { return write(file, from, count); }

enum { PROT_NONE = 0, PROT_READ_WRITE = 3, PRIVATE_ANONYMOUS = 0x22, STACK_WITHOUT_RESERVE = 0x24000, MAY_MOVE = 1 };
static void *pages(i64 answer) { return IS_ERROR(answer) ? 0 : (void *)answer; }
static void *map_as(size bytes, int flags) { return pages(call(MMAP, 0, bytes, PROT_READ_WRITE, PRIVATE_ANONYMOUS | flags, -1, 0)); }
static void *map(size bytes) { return map_as(bytes, 0); }
static void unmap(void *at, size bytes) { call(MUNMAP, (i64)at, bytes, 0, 0, 0, 0); }
static void *remap(void *at, size kept, size bytes) { return pages(call(MREMAP, (i64)at, kept, bytes, MAY_MOVE, 0, 0)); }

// By this the program ignores SIGPIPE, so that a closed pipe is an error of `write`. As the kernel has it.
typedef struct {
    i64 action;
    size flags, restorer, mask;
} Action;

i64 __sysv_signal(int signal, i64 action) {
    Action new = {.action = action}, old = {0};
    return told(call(SIGACTION, signal, (i64)&new, (i64)&old, sizeof new.mask, 0, 0)) < 0 ? -1 : old.action;
}

static __attribute__((noreturn)) void end(int status) {
    call(EXIT_GROUP, status, 0, 0, 0, 0, 0);
    __builtin_trap();
}

__attribute__((used)) void finish(void) { end(main()); }

// Where the address space has a limit (`ulimit -v`), a stack of LESS is taken, and leaves the rest to the heap; also where the system gives no more.
// Below either stand GUARD bytes that nothing can touch, so that what would need more ends by a signal.
#define LESS ((size)8 << 20)
#define GUARD ((size)1 << 16)
enum { RLIMIT_AS = 9, NO_MEMORY = 9 };

static int is_limited(void) {
    size most[2] = {0};
    return call(PRLIMIT, 0, RLIMIT_AS, 0, (i64)most, 0, 0) < 0 || most[0] != (size)-1;
}

static char *stack_of(size bytes) {
    char *at = map_as(GUARD + bytes, STACK_WITHOUT_RESERVE);
    return at && call(MPROTECT, (i64)at, GUARD, PROT_NONE, 0, 0, 0) == 0 ? at + GUARD + bytes : 0;
}

// `at` is the stack as the system gives it at the start: how many words there are, and then they.
__attribute__((used, noreturn)) void begin(i64 *at) {
    word_count = (size)at[0];
    words = (const char **)(at + 1);
    char *top = is_limited() ? 0 : stack_of(STACK_BYTES);
    if (!top) top = stack_of(LESS);
    if (!top) end(NO_MEMORY);
    FINISH_ON(top);
    __builtin_unreachable();
}
