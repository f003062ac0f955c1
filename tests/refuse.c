/* Refuses one allocation of a program: the one whose number, from 1, REFUSED in the environment has. At its end the program's
 * allocations are counted in the file that COUNTED names, where it names one. For tests/memory.py, by LD_PRELOAD. */
#include <errno.h>
#include <fcntl.h>
#include <stddef.h>
#include <stdlib.h>
#include <unistd.h>

extern void *__libc_malloc(size_t size);
extern void *__libc_realloc(void *at, size_t size);

static unsigned long count, refused;
static int is_ready;

__attribute__((constructor)) static void begin(void) {
    const char *word = getenv("REFUSED");

    refused = word ? strtoul(word, NULL, 10) : 0;
    is_ready = 1;
}

__attribute__((destructor)) static void end(void) {
    const char *path = getenv("COUNTED");
    char digits[24], *at = digits + sizeof(digits);
    unsigned long left = count;
    int file = path ? open(path, O_WRONLY | O_CREAT | O_TRUNC, 0600) : -1;

    if (file < 0)
        return;
    do
        *--at = (char)('0' + left % 10);
    while (left /= 10);
    if (write(file, at, (size_t)(digits + sizeof(digits) - at)) < 0)
        _exit(99);
    close(file);
}

static int is_refused(void) {
    if (!is_ready || ++count != refused)
        return 0;
    errno = ENOMEM;
    return 1;
}

void *malloc(size_t size) {
    return is_refused() ? NULL : __libc_malloc(size);
}

void *realloc(void *at, size_t size) {
    return is_refused() ? NULL : __libc_realloc(at, size);
}
