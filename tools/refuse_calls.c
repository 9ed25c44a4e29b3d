/* Refuses calls of the program that it is loaded into before the C library: growths of its memory, or syncs of its files where REFUSED_SYNCS is set. That of
   the number REFUSED is refused, and with REFUSED_ON all behind it too. How many there were is written into the file COUNT_FILE as the program ends. */
#define _GNU_SOURCE
#include <errno.h>
#include <fcntl.h>
#include <stddef.h>
#include <stdio.h>
#include <stdlib.h>
#include <sys/syscall.h>
#include <unistd.h>

extern void *__libc_malloc(size_t size);
extern void *__libc_calloc(size_t count, size_t size);
extern void *__libc_realloc(void *place, size_t size);

static unsigned long asked, refused;
static int goes_on, counts_syncs;
static const char *count_file;

__attribute__((constructor)) static void begin(void) {
    const char *number = getenv("REFUSED");
    refused = number ? strtoul(number, NULL, 10) : 0;
    goes_on = getenv("REFUSED_ON") != NULL;
    counts_syncs = getenv("REFUSED_SYNCS") != NULL;
    count_file = getenv("COUNT_FILE");
    asked = 0;
}

__attribute__((destructor)) static void end(void) {
    char text[32];
    unsigned long count = asked;
    int file = count_file ? open(count_file, O_WRONLY | O_CREAT | O_TRUNC, 0666) : -1;
    if (file >= 0) {
        int length = snprintf(text, sizeof text, "%lu", count);
        if (write(file, text, length) != length)
            _exit(99);
        close(file);
    }
}

/* Counts a call of a kind. */
static int is_refused(int is_sync, int error) {
    if (is_sync != counts_syncs)
        return 0;
    asked++;
    if (refused == 0 || asked < refused || (asked > refused && !goes_on))
        return 0;
    errno = error;
    return 1;
}

void *malloc(size_t size) {
    return is_refused(0, ENOMEM) ? NULL : __libc_malloc(size);
}

void *calloc(size_t count, size_t size) {
    return is_refused(0, ENOMEM) ? NULL : __libc_calloc(count, size);
}

void *realloc(void *place, size_t size) {
    return is_refused(0, ENOMEM) ? NULL : __libc_realloc(place, size);
}

int fsync(int file) {
    return is_refused(1, EIO) ? -1 : (int)syscall(SYS_fsync, file);
}
