/* A library to load before a program by LD_PRELOAD: refuses one of its requests for memory.

   REFUSE_REQUEST is the number of the request, from 1. Requests count from the constructor below on, so those of the
   loader and of the C library's own start are granted and not counted. REFUSE_REPORT is a file that gets one line,
   which says what was asked for, where a request is refused; without a refusal the file stays as it is.
   For programs of one thread, over the GNU C library. */
#include <errno.h>
#include <fcntl.h>
#include <stdio.h>
#include <stdlib.h>
#include <unistd.h>

/* the GNU C library's own functions, which those below call */
void *__libc_malloc(size_t size);
void *__libc_calloc(size_t count, size_t size);
void *__libc_realloc(void *old, size_t size);
void *__libc_memalign(size_t alignment, size_t size);

static unsigned long refused; /* 0 until the constructor has run, and where no request is to be refused */
static unsigned long counted;
static const char *report;

__attribute__((constructor)) static void start(void)
{
    const char *number = getenv("REFUSE_REQUEST");
    report = getenv("REFUSE_REPORT");
    if (number && report)
        refused = strtoul(number, NULL, 10);
}

/* Whether this request is the one to be refused. A refusal that cannot be reported ends the program. */
static int refuses(const char *function, size_t size)
{
    char line[80];
    int file, length;
    if (refused == 0 || ++counted != refused)
        return 0;
    length = snprintf(line, sizeof line, "%s of %zu bytes\n", function, size);
    file = open(report, O_WRONLY | O_CREAT | O_TRUNC, 0600);
    if (file < 0 || write(file, line, length) != length || close(file) != 0)
        abort();
    errno = ENOMEM;
    return 1;
}

void *malloc(size_t size)
{
    return refuses("malloc", size) ? NULL : __libc_malloc(size);
}

void *calloc(size_t count, size_t size)
{
    return refuses("calloc", count * size) ? NULL : __libc_calloc(count, size);
}

/* A request for 0 bytes gives memory back. */
void *realloc(void *old, size_t size)
{
    return size != 0 && refuses("realloc", size) ? NULL : __libc_realloc(old, size);
}

void *aligned_alloc(size_t alignment, size_t size)
{
    return refuses("aligned_alloc", size) ? NULL : __libc_memalign(alignment, size);
}

int posix_memalign(void **made, size_t alignment, size_t size)
{
    void *memory = refuses("posix_memalign", size) ? NULL : __libc_memalign(alignment, size);
    if (!memory)
        return ENOMEM;
    *made = memory;
    return 0;
}
