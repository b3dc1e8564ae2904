// The part of host.c that depends on the system, for Windows on x86-64: it calls only kernel32.dll. Names and words are UTF-8, as on Linux. The stack is the system's:
// the program's file asks for STACK_BYTES. There are no signals.
typedef unsigned short letter;
typedef void *Handle;

#define IMPORTED __declspec(dllimport)
IMPORTED Handle GetStdHandle(unsigned which);
IMPORTED int GetConsoleMode(Handle file, unsigned *mode);
IMPORTED unsigned GetConsoleOutputCP(void);
IMPORTED int SetConsoleOutputCP(unsigned page);
IMPORTED Handle CreateFileW(const letter *name, unsigned access, unsigned share, void *safety, unsigned how, unsigned flags, Handle like);
IMPORTED int ReadFile(Handle file, void *to, unsigned most, unsigned *count, void *how);
IMPORTED int WriteFile(Handle file, const void *from, unsigned most, unsigned *count, void *how);
IMPORTED int CloseHandle(Handle file);
IMPORTED unsigned GetLastError(void);
IMPORTED const letter *GetCommandLineW(void);
IMPORTED int MultiByteToWideChar(unsigned page, unsigned how, const char *from, int bytes, letter *to, int most);
IMPORTED int WideCharToMultiByte(unsigned page, unsigned how, const letter *from, int letters, char *to, int most, const char *other, int *used);
IMPORTED void *VirtualAlloc(void *at, size bytes, unsigned how, unsigned access);
IMPORTED int VirtualFree(void *at, size bytes, unsigned how);
IMPORTED __attribute__((noreturn)) void ExitProcess(unsigned status);

enum { COMMIT_RESERVE = 0x3000, RELEASE = 0x8000, READ_WRITE = 4 };
static void *map(size bytes) { return VirtualAlloc(0, bytes, COMMIT_RESERVE, READ_WRITE); }
static void unmap(void *at, size bytes) { VirtualFree(at, 0, RELEASE); }
static void *remap(void *at, size kept, size bytes) {
    void *moved = map(bytes);
    if (!moved) return 0;
    memcpy(moved, at, kept < bytes ? kept : bytes);
    unmap(at, kept);
    return moved;
}

// Errors of Windows, and Linux's numbers of those that the program tells apart.
enum { FILE_NOT_FOUND = 2, PATH_NOT_FOUND = 3, NOT_ENOUGH_MEMORY = 8, HANDLE_EOF = 38, BROKEN_PIPE = 109, INVALID_NAME = 123, BAD_PATHNAME = 161 };
enum { ENOENT = 2, EIO = 5, ENOMEM = 12 };

static int failed_by(unsigned why) {
    switch (why) {
    case FILE_NOT_FOUND:
    case PATH_NOT_FOUND:
    case INVALID_NAME:
    case BAD_PATHNAME: return failed(ENOENT);
    case NOT_ENOUGH_MEMORY: return failed(ENOMEM);
    default: return failed(EIO);
    }
}

enum { UTF8 = 65001, STRICTLY = 8, MOST_LETTERS = 4100, GENERIC_READ = 0x80000000, SHARE_ALL = 7, OPEN_EXISTING = 3 };
enum { FIRST_FILE = 3, MOST_FILES = 64 };
#define NO_HANDLE ((Handle)-1)
static Handle opened[MOST_FILES];

static Handle handle_of(int file) { return file < FIRST_FILE ? GetStdHandle((unsigned)(-10 - file)) : opened[file - FIRST_FILE]; }

// A folder is not opened: that is an error like others.
int open(const char *name, int flags, ...) {
    static letter wide[MOST_LETTERS];
    if (!MultiByteToWideChar(UTF8, STRICTLY, name, -1, wide, MOST_LETTERS)) return failed(ENOENT);
    int i = 0;
    while (i < MOST_FILES && opened[i]) i++;
    if (i == MOST_FILES) return failed(EIO);
    Handle file = CreateFileW(wide, GENERIC_READ, SHARE_ALL, 0, OPEN_EXISTING, 0, 0);
    if (file == NO_HANDLE) return failed_by(GetLastError());
    opened[i] = file;
    return FIRST_FILE + i;
}

int close(int file) {
    CloseHandle(handle_of(file));
    if (file >= FIRST_FILE) opened[file - FIRST_FILE] = 0;
    return 0;
}

// At most 2 to the 30 bytes at once, which a call of Windows can take.
static unsigned part_of(size count) { return count < (size)1 << 30 ? (unsigned)count : 1u << 30; }

// A line that is typed ends with two bytes on Windows, and with the second of them on Linux.
static unsigned without_returns(char *bytes, unsigned count) {
    unsigned kept = 0;
    for (unsigned i = 0; i < count; i++)
        if (bytes[i] != '\r') bytes[kept++] = bytes[i];
    return kept;
}

// The end of a pipe is told as an error.
i64 read(int file, void *to, size most) {
    Handle from = handle_of(file);
    for (unsigned count, mode;;) {
        if (!ReadFile(from, to, part_of(most), &count, 0)) {
            unsigned why = GetLastError();
            return why == BROKEN_PIPE || why == HANDLE_EOF ? 0 : failed_by(why);
        }
        if (count == 0 || !GetConsoleMode(from, &mode)) return count;
        count = without_returns(to, count);
        if (count > 0) return count;
    }
}

i64 write(int file, const void *from, size most) {
    unsigned count = 0;
    return WriteFile(handle_of(file), from, part_of(most), &count, 0) ? (i64)count : failed_by(GetLastError());
}

i64 __sysv_signal(int signal, i64 action) { return 0; }

// What the program takes in rax and rdx, C gives by a pointer on Windows.
#define TRIED(NAME, PARAMETERS, WORK)                                                                                    \
    __attribute__((used)) static void *NAME##_at PARAMETERS { return WORK; }                                             \
    __asm__(".globl " #NAME "\n" #NAME ": sub $40, %rsp\n call " #NAME "_at\n add $40, %rsp\n"                          \
            " mov %rax, %rdx\n xor %eax, %eax\n test %rdx, %rdx\n setne %al\n ret\n");

// Touches each page of a frame of rax bytes, downwards, so that the guard page below the stack is met. clang calls it.
__asm__(".globl __chkstk\n__chkstk: push %rcx\n push %rax\n lea 24(%rsp), %rcx\n"
        "1: cmp $4096, %rax\n jb 2f\n sub $4096, %rcx\n orq $0, (%rcx)\n sub $4096, %rax\n jmp 1b\n"
        "2: sub %rax, %rcx\n orq $0, (%rcx)\n pop %rax\n pop %rcx\n ret\n");

// By this a linker of Windows is told that numbers with a point are used.
int _fltused;

// Parts the command line as the C library of Windows does: a word ends at a blank outside of quotes; of backslashes before a quote each second one
// stands for itself, and an odd one has the quote stand for itself; two quotes within quotes are one. Each word gets a 0 behind it.
static void part(const char *line, char *to) {
    int is_quoted = 0, is_word = 0;
    for (;; line++) {
        size slashes = 0;
        while (line[slashes] == '\\') slashes++;
        line += slashes;
        if (!is_word && (slashes || (*line && *line != ' ' && *line != '\t'))) {
            words[word_count++] = to;
            is_word = 1;
        }
        for (size i = *line == '"' ? slashes / 2 : slashes; i; i--) *to++ = '\\';
        if (*line == '"' && slashes % 2 == 0) {
            if (is_quoted && line[1] == '"') *to++ = *line++;
            else is_quoted = !is_quoted;
        } else if (*line && (is_quoted || (*line != ' ' && *line != '\t'))) *to++ = *line;
        else if (is_word) {
            *to++ = 0;
            is_word = 0;
        }
        if (!*line) return;
    }
}

// A word takes two bytes of the line at least, and no more in all than the line has.
__attribute__((force_align_arg_pointer)) void begin(void) {
    const letter *line = GetCommandLineW();
    int most = WideCharToMultiByte(UTF8, 0, line, -1, 0, 0, 0, 0);
    char *text = map((size)most), *parts = map((size)most + 1);
    words = map(((size)most / 2 + 1) * sizeof *words);
    if (!text || !parts || !words) ExitProcess(9);
    WideCharToMultiByte(UTF8, 0, line, -1, text, most, 0, 0);
    part(text, parts);
    unsigned page = GetConsoleOutputCP();
    SetConsoleOutputCP(UTF8);
    int status = main();
    SetConsoleOutputCP(page);
    ExitProcess((unsigned)status);
}
