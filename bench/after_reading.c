/* Preloaded into a run of the program: how long all takes that comes after reading, told by one run itself.
 *
 * The text of the input grows until it has room for all of it: the first piece of memory that is made as large as the input, by growth, is
 * the text. Reading ends where that is let go. At the end of the run the seconds since then, by the clock and of all processors, are
 * written into the file that AFTER_READING names; nothing is where no text was let go. AFTER_READING_BYTES is the size of the input. */
#define _GNU_SOURCE
#include <dlfcn.h>
#include <stdio.h>
#include <stdlib.h>
#include <time.h>
#include <unistd.h>

static void (*free_of_libc)(void *);
static void *(*realloc_of_libc)(void *, size_t);
static void *text;
static int is_known, is_read;
static double clock_then, processors_then;

static double seconds(clockid_t which)
{
    struct timespec now;
    clock_gettime(which, &now);
    return now.tv_sec + now.tv_nsec * 1e-9;
}

static size_t input_bytes(void)
{
    static size_t bytes;
    if (!bytes) {
        const char *told = getenv("AFTER_READING_BYTES");
        bytes = told ? strtoull(told, NULL, 10) : (size_t)-1;
    }
    return bytes;
}

void *realloc(void *piece, size_t size)
{
    if (!realloc_of_libc)
        realloc_of_libc = (void *(*)(void *, size_t))dlsym(RTLD_NEXT, "realloc");
    void *grown = realloc_of_libc(piece, size);
    if (!is_known && size >= input_bytes() && grown) {
        is_known = 1;
        text = grown;
    }
    return grown;
}

void free(void *piece)
{
    if (!free_of_libc)
        free_of_libc = (void (*)(void *))dlsym(RTLD_NEXT, "free");
    free_of_libc(piece);
    if (is_known && !is_read && piece == text) {
        is_read = 1;
        clock_then = seconds(CLOCK_MONOTONIC);
        processors_then = seconds(CLOCK_PROCESS_CPUTIME_ID);
    }
}

static void tell(void)
{
    double by_clock = seconds(CLOCK_MONOTONIC) - clock_then;
    double of_processors = seconds(CLOCK_PROCESS_CPUTIME_ID) - processors_then;
    const char *path = getenv("AFTER_READING");
    FILE *file = is_read && path ? fopen(path, "w") : NULL;
    if (file) {
        fprintf(file, "%.6f %.6f\n", by_clock, of_processors);
        fclose(file);
    }
}

/* Programs that leave without more ado end here. */
void _exit(int status)
{
    void (*exit_of_libc)(int) = (void (*)(int))dlsym(RTLD_NEXT, "_exit");
    tell();
    exit_of_libc(status);
    __builtin_unreachable();
}

/* Others end here. */
__attribute__((destructor)) static void tell_at_end(void)
{
    tell();
}
