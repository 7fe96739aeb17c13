/* Counts what a program asks of the C library's allocator. Preloaded; on SIGUSR1 it writes the count to standard error. */
#include <signal.h>
#include <stddef.h>
#include <string.h>
#include <unistd.h>

void *__libc_malloc(size_t size);
void *__libc_realloc(void *old, size_t size);
void *__libc_calloc(size_t count, size_t size);
void *__libc_memalign(size_t align, size_t size);

static volatile unsigned long asked;

void *malloc(size_t size)
{
    asked++;
    return __libc_malloc(size);
}

void *realloc(void *old, size_t size)
{
    asked++;
    return __libc_realloc(old, size);
}

void *calloc(size_t count, size_t size)
{
    asked++;
    return __libc_calloc(count, size);
}

void *aligned_alloc(size_t align, size_t size)
{
    asked++;
    return __libc_memalign(align, size);
}

/* No call of the library formats in a signal handler: the digits are written by hand. */
static void tell(int signal)
{
    char line[24];
    size_t at = sizeof line;
    unsigned long left = asked;
    (void)signal;
    line[--at] = '\n';
    do {
        line[--at] = (char)('0' + left % 10);
        left /= 10;
    } while (left);
    if (write(2, line + at, sizeof line - at) < 0)
        _exit(1);
}

__attribute__((constructor)) static void listen_for_it(void)
{
    struct sigaction how;
    memset(&how, 0, sizeof how);
    how.sa_handler = tell;
    how.sa_flags = SA_RESTART;
    sigaction(SIGUSR1, &how, NULL);
}
