/* Put before a program by LD_PRELOAD: it refuses requests for memory, or fails calls on files and streams, and says at the end
   what was asked for. FAILING is m or d, for memory or for the disk and the streams, then the number of the request that fails,
   then letters: a, all from it on fail; b, each read and write moves one byte; z, a write that fails takes no byte instead.
   The report goes to descriptor 100: of memory how many requests there were, the most bytes that were held at once, and whether a
   request was refused; of the disk a line a call with the file's name and the answer. It takes no header, so that every C compiler
   builds it. */
typedef unsigned long size_t;
typedef long ssize_t;

void *__libc_malloc(size_t), *__libc_calloc(size_t, size_t), *__libc_realloc(void *, size_t), *__libc_memalign(size_t, size_t);
void __libc_free(void *);
size_t malloc_usable_size(void *);
long syscall(long, ...);
char *getenv(const char *);
int *__errno_location(void);

enum { READ = 0, WRITE = 1, OPEN = 2, LSEEK = 8 };
enum { ENOMEM = 12, EIO = 5, REPORT = 100, NAMES = 64, NAME = 256, LOG = 1 << 18 };

static char kind;   /* none until the program begins */
static long failing, seen, held, most;
static int to_the_end, by_bytes, takes_none;
static char names[NAMES][NAME] = {"", "out", "err"};
static char report[LOG];
static long reported;

static void add(const char *text) { while (*text && reported < LOG) report[reported++] = *text++; }

static void add_number(long n) {
    char digits[24], *at = digits + 23;
    *at = 0;
    unsigned long rest = n < 0 ? -(unsigned long)n : n;
    do *--at = '0' + rest % 10; while (rest /= 10);
    if (n < 0) *--at = '-';
    add(at);
}

__attribute__((constructor)) static void begin(void) {
    const char *text = getenv("FAILING");
    if (!text || !*text) return;
    for (const char *at = text + 1; *at; at++)
        if (*at == 'a') to_the_end = 1;
        else if (*at == 'b') by_bytes = 1;
        else if (*at == 'z') takes_none = 1;
        else failing = failing * 10 + (*at - '0');
    kind = *text;
}

__attribute__((destructor)) static void end(void) {
    if (kind == 'm') { add_number(seen); add(" "); add_number(most); add(seen >= failing && failing ? " refused\n" : " given\n"); }
    if (kind) syscall(WRITE, REPORT, report, reported);
}

/* Whether the request that is made now fails, and with what it fails. */
static int fails(char asked, int error) {
    if (kind != asked) return 0;
    seen++;
    if (!failing || (to_the_end ? seen < failing : seen != failing)) return 0;
    *__errno_location() = error;
    return 1;
}

/* Counts the bytes of a piece of memory that is held from now on. */
static void *taken(void *piece) {
    held += malloc_usable_size(piece);
    if (held > most) most = held;
    return piece;
}

void *malloc(size_t size) { return fails('m', ENOMEM) ? 0 : taken(__libc_malloc(size)); }
void *calloc(size_t n, size_t size) { return fails('m', ENOMEM) ? 0 : taken(__libc_calloc(n, size)); }
void *aligned_alloc(size_t align, size_t size) { return fails('m', ENOMEM) ? 0 : taken(__libc_memalign(align, size)); }

void *realloc(void *old, size_t size) {
    if (fails('m', ENOMEM)) return 0;
    long had = malloc_usable_size(old);
    void *piece = __libc_realloc(old, size);
    if (piece) held -= had;
    return taken(piece);
}

void free(void *piece) {
    held -= malloc_usable_size(piece);
    __libc_free(piece);
}

/* What came of a call, as the C library answers it. */
static long answer(const char *call, const char *name, long found) {
    if (kind == 'd') { add(call); add(" "); add(name); add(" "); add_number(found); add("\n"); }
    if (found >= 0) return found;
    *__errno_location() = -found;
    return -1;
}

static const char *name_of(int file) { return file >= 0 && file < NAMES ? names[file] : ""; }

int open(const char *name, int flags, int mode) {
    long found = fails('d', EIO) ? -EIO : 0;
    if (!found) found = syscall(OPEN, name, flags, mode);
    if (found == -1) found = -*__errno_location();
    if (found >= 0 && found < NAMES) {
        int at = 0;
        for (; name[at] && at < NAME - 1; at++) names[found][at] = name[at];
        names[found][at] = 0;
    }
    return answer(flags & 3 ? "create" : "open", name, found);
}

static long moved(long number, const char *call, int file, const void *piece, size_t size) {
    if (by_bytes && size > 1) size = 1;
    long found = !fails('d', EIO) ? syscall(number, file, piece, size) : takes_none ? 0 : -EIO;
    if (found == -1) found = -*__errno_location();
    return answer(call, name_of(file), found);
}

ssize_t read(int file, void *piece, size_t size) { return moved(READ, "read", file, piece, size); }
ssize_t write(int file, const void *piece, size_t size) { return moved(WRITE, "write", file, piece, size); }

long lseek(int file, long at, int from) {
    long found = fails('d', EIO) ? -EIO : syscall(LSEEK, file, at, from);
    if (found == -1) found = -*__errno_location();
    return answer("seek", name_of(file), found);
}
