// This file is loaded in front of the C library. It counts the program's allocations, its reads and writes, and the
// files that it opens, and strikes one of them. The variable STRIKE says how, and which call of that kind, as in
// "refuse 7":
//
//     refuse   the allocation fails
//     deplete  the allocation fails, and so do all after it
//     cut      the read or write of two bytes or more moves one
//     fail     the read or write fails
//     starve   a file can't be opened, for lack of memory
//
// Where a call is struck, the file whose name the variable STRUCK holds gets a letter and the number of the open file:
// A for an allocation, O for opening, R for a read, W for a write. There are no headers, so that any C compiler will do.

typedef __SIZE_TYPE__ size_t;
typedef __PTRDIFF_TYPE__ ssize_t;

extern void *dlsym(void *handle, const char *name);
extern char *getenv(const char *name);
extern int close(int file);
extern int *__errno_location(void);

enum { INPUT_OR_OUTPUT_ERROR = 5, OUT_OF_MEMORY = 12, TO_WRITE_ANEW = 01101 };

static int (*real_open)(const char *, int, ...);
static ssize_t (*real_read)(int, void *, size_t);
static ssize_t (*real_write)(int, const void *, size_t);
static void *(*real_malloc)(size_t);
static void *(*real_calloc)(size_t, size_t);
static void *(*real_realloc)(void *, size_t);

// What is struck: the first letter of the kind, and how many of its calls there are until then, this one included.
static char kind;
static long left;

static void *next(const char *name) {
    return dlsym((void *)-1L, name);
}

__attribute__((constructor)) static void begin(void) {
    *(void **)&real_open = next("open");
    *(void **)&real_read = next("read");
    *(void **)&real_write = next("write");
    *(void **)&real_malloc = next("malloc");
    *(void **)&real_calloc = next("calloc");
    *(void **)&real_realloc = next("realloc");
    const char *strike = getenv("STRIKE");
    if (!strike) return;
    kind = *strike;
    left = 0;
    for (; *strike; strike++)
        if ('0' <= *strike && *strike <= '9') left = 10 * left + (*strike - '0');
}

static void tell(char letter, int file) {
    char told[2] = {letter, (char)('0' + file)};
    const char *path = getenv("STRUCK");
    int notes = path ? real_open(path, TO_WRITE_ANEW, 0600) : -1;
    if (notes < 0) return;
    real_write(notes, told, sizeof told);
    close(notes);
}

// Whether this call is one of the kind, and the one to strike.
static int is_struck(char wanted, char letter, int file) {
    if (kind != wanted || left <= 0 || --left) return 0;
    tell(letter, file);
    return 1;
}

static int fails(int error) {
    *__errno_location() = error;
    return -1;
}

static int is_refused(void) {
    static int is_depleted;
    is_depleted = is_depleted || is_struck('d', 'A', 0);
    if (!is_depleted && !is_struck('r', 'A', 0)) return 0;
    fails(OUT_OF_MEMORY);
    return 1;
}

void *malloc(size_t length) {
    // the loader may ask before the constructor has run
    if (!real_malloc) begin();
    return is_refused() ? 0 : real_malloc(length);
}

void *calloc(size_t count, size_t length) {
    if (!real_calloc) begin();
    return is_refused() ? 0 : real_calloc(count, length);
}

void *realloc(void *old, size_t length) {
    if (!real_realloc) begin();
    return is_refused() ? 0 : real_realloc(old, length);
}

// The program opens files for reading alone, so the mode of new ones isn't passed on.
int open(const char *path, int flags, ...) {
    if (is_struck('s', 'O', 0)) return fails(OUT_OF_MEMORY);
    return real_open(path, flags, 0);
}

ssize_t read(int file, void *bytes, size_t length) {
    if (is_struck('f', 'R', file)) return fails(INPUT_OR_OUTPUT_ERROR);
    return real_read(file, bytes, length > 1 && is_struck('c', 'R', file) ? 1 : length);
}

ssize_t write(int file, const void *bytes, size_t length) {
    if (is_struck('f', 'W', file)) return fails(INPUT_OR_OUTPUT_ERROR);
    return real_write(file, bytes, length > 1 && is_struck('c', 'W', file) ? 1 : length);
}

// The same under another name, which the program uses too.
ssize_t __write(int file, const void *bytes, size_t length) {
    return write(file, bytes, length);
}
