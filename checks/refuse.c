/* Preloaded into a program by checks/allocations, it counts the program's allocations and refuses some of them: the one
   whose number REFUSE has, or with REFUSE_LATER that one and all later ones. At the end it writes how many there were to
   the descriptor that TELL has. It needs no header, and the C library's own names of its allocator. */
typedef unsigned long size;

extern void *__libc_malloc(size bytes);
extern void *__libc_realloc(void *block, size bytes);
extern void *__libc_calloc(size items, size bytes);
extern char *getenv(const char *name);
extern long atol(const char *digits);
extern int dprintf(int descriptor, const char *format, ...);

static long count;

static long number(const char *name)
{
    const char *digits = getenv(name);
    return digits ? atol(digits) : 0;
}

static int is_refused(void)
{
    long refused = number("REFUSE");
    count += 1;
    return refused && (count == refused || (count > refused && number("REFUSE_LATER")));
}

void *malloc(size bytes)
{
    return is_refused() ? 0 : __libc_malloc(bytes);
}

void *realloc(void *block, size bytes)
{
    return is_refused() ? 0 : __libc_realloc(block, bytes);
}

void *calloc(size items, size bytes)
{
    return is_refused() ? 0 : __libc_calloc(items, bytes);
}

__attribute__((destructor)) static void tell(void)
{
    long descriptor = number("TELL");
    if (descriptor)
        dprintf(descriptor, "%ld", count);
}
