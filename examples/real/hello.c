/* Threads, thread-local data, constructors, a common, a section by its name, frames: over any C library. */
#include <pthread.h>
#include <stdio.h>
#include <stdlib.h>
#include <string.h>

/* A section group that both objects have, which are made of this file. */
__asm__(".section .data.once,\"awG\",@progbits,once,comdat; .weak once; once: .long 41; .previous");
extern int once;
__attribute__((common)) int common_total;
int second(int added);

#ifdef SECOND
int second(int added) { return once += added; }
int left_out(void) { return puts("never"); }
#else
static __thread int own = 40;
static __thread char scratch[64];
static int built;
static int four[] __attribute__((section("named"), used)) = {3, 4, 5, 6};
extern int __start_named[], __stop_named[];

__attribute__((constructor)) static void early(void) { built = built * 10 + 2; }
__attribute__((constructor(200))) static void earlier(void) { built = built * 10 + 1; }
__attribute__((destructor)) static void late(void) { puts("the end"); }

static void *worker(void *argument)
{
    common_total += own += (int)(long)argument;
    snprintf(scratch, sizeof scratch, "own %d", own);
    return strdup(scratch);
}

#ifdef __GLIBC__ /* which knows how to find frames by their header */
#include <unwind.h>
static _Unwind_Reason_Code count(struct _Unwind_Context *frame, void *frames)
{
    *(int *)frames += _Unwind_GetIP(frame) != 0;
    return _URC_NO_REASON;
}
#else
#define _Unwind_Backtrace(count, frames) (void)0
#endif

int main(int argc, char **argv)
{
    pthread_t thread;
    void *told;
    int frames = 0;
    for (long i = 0; i < 4; i++) {
        pthread_create(&thread, 0, worker, (void *)i);
        pthread_join(thread, &told);
        printf("thread %ld: %s\n", i, (char *)told);
    }
    _Unwind_Backtrace(count, &frames);
    printf("built %d total %d own %d once %d frames %d\n", built, common_total, own, second(1), frames);
    printf("%s %.3f named %d\n", argc > 1 ? argv[1] : "no word", 22.0 / 7, (int)(__stop_named - __start_named));
    return 0;
}
#endif
