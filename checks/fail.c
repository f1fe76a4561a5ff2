/* Preloaded into a program by checks/faults, it counts the program's opens, its reads and its writes to standard output, and
   makes one of them fail: the open, the read or the write whose number FAIL_OPEN, FAIL_READ or FAIL_WRITE has. Of that write
   FAIL_KEPT bytes are written, if it has a number above 0, and then the next write fails in its place. To the descriptor that
   TELL has it writes a line for each call: its name, and how many bytes it asks for. It needs no header, and the C library's
   own names of its calls. */
typedef unsigned long size;

enum { STANDARD_OUTPUT = 1, EIO = 5, EACCES = 13, ENOSPC = 28 };

extern int __open(const char *path, int flags, ...);
extern long __read(int descriptor, void *room, size bytes);
extern long __write(int descriptor, const void *piece, size bytes);
extern int *__errno_location(void);
extern char *getenv(const char *name);
extern long atol(const char *digits);
extern int dprintf(int descriptor, const char *format, ...);

static long opens, reads, writes;

static long number(const char *name)
{
    const char *digits = getenv(name);
    return digits ? atol(digits) : 0;
}

static void tell(const char *call, size bytes)
{
    long descriptor = number("TELL");
    if (descriptor)
        dprintf(descriptor, "%s %lu\n", call, bytes);
}

static int fails(int error)
{
    *__errno_location() = error;
    return -1;
}

/* The program makes no file, so it hands over no mode. */
int open(const char *path, int flags, ...)
{
    tell("open", 0);
    opens += 1;
    return opens == number("FAIL_OPEN") ? fails(EACCES) : __open(path, flags);
}

long read(int descriptor, void *room, size bytes)
{
    tell("read", bytes);
    reads += 1;
    return reads == number("FAIL_READ") ? fails(EIO) : __read(descriptor, room, bytes);
}

long write(int descriptor, const void *piece, size bytes)
{
    long failing = number("FAIL_WRITE"), kept = number("FAIL_KEPT");
    if (descriptor != STANDARD_OUTPUT)
        return __write(descriptor, piece, bytes);
    tell("write", bytes);
    writes += 1;
    if (kept && writes == failing)
        return __write(descriptor, piece, kept);
    return failing && writes == failing + (kept > 0) ? fails(ENOSPC) : __write(descriptor, piece, bytes);
}
