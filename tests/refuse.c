/* Refuses growths of memory and bytes of standard output. What it is to refuse stands in the
   environment:

   REFUSED_GROWTH=N     the growth of this number, counted from 1
   REFUSED_BEHIND=W:N   behind write number W of standard output (0 for the start) the growth of
                        number N; several, parted by blanks
   TOLD_WRITES=1        nothing: at each write of standard output it tells how many growths there
                        were since the one before, and its bytes
   WRITE_FAILS=N        the write of standard output of this number, counted from 1; no other
   WRITTEN_AT_ONCE=N    a write of standard output takes N bytes at most
   WRITTEN_IN_ALL=N     after so many bytes of standard output a write takes none, and fails where
                        WRITES_FAIL is set

   It says 'growth refused' on standard error where it refuses one, and tells numbers there, a line
   each. tests/programs.py has it loaded before the C library, whose heap serves the rest. */

typedef __SIZE_TYPE__ size_t;

void *__libc_malloc(size_t size);
void *__libc_realloc(void *block, size_t size);
long __write(int file, const void *bytes, size_t count);
char *getenv(const char *name);
long strtol(const char *text, char **end, int base);
int snprintf(char *text, size_t size, const char *format, ...);
int *__errno_location(void);

static long growths, growths_since_write, writes, written;

/* The number that stands in the environment, or another where none does. */
static long number_of(const char *name, long otherwise) {
    const char *text = getenv(name);
    return text == 0 ? otherwise : strtol(text, 0, 10);
}

/* Whether a growth is refused, which it counts. */
static int is_refused(void) {
    static const char told[] = "growth refused\n";
    growths += 1;
    growths_since_write += 1;
    int is_named = number_of("REFUSED_GROWTH", 0) == growths;
    char *text = getenv("REFUSED_BEHIND");
    while (text != 0 && *text != 0) {
        int is_here = strtol(text, &text, 10) == writes;
        is_named |= strtol(text + 1, &text, 10) == growths_since_write && is_here;
    }
    if (is_named) {
        __write(2, told, sizeof told - 1);
    }
    return is_named;
}

void *malloc(size_t size) {
    return is_refused() ? 0 : __libc_malloc(size);
}

void *realloc(void *block, size_t size) {
    return is_refused() ? 0 : __libc_realloc(block, size);
}

/* How many of these bytes a write of standard output takes. */
static size_t taken_of(size_t count) {
    size_t at_once = number_of("WRITTEN_AT_ONCE", count);
    size_t room = number_of("WRITTEN_IN_ALL", written + count) - written;
    size_t taken = count < at_once ? count : at_once;
    return taken < room ? taken : room;
}

long write(int file, const void *bytes, size_t count) {
    if (file != 1) {
        return __write(file, bytes, count);
    }
    if (getenv("TOLD_WRITES") != 0) {
        char told[48];
        __write(2, told, snprintf(told, sizeof told, "%ld\n%zu\n", growths_since_write, count));
    }
    growths_since_write = 0;
    writes += 1;
    int fails = number_of("WRITE_FAILS", 0) == writes;
    size_t taken = fails ? 0 : taken_of(count);
    if (taken == 0 && count > 0) {
        *__errno_location() = 28; /* the device has no room */
        return fails || getenv("WRITES_FAIL") != 0 ? -1 : 0;
    }
    written += taken;
    return __write(file, bytes, taken);
}
