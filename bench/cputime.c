/* With LD_PRELOAD each clock tells the thread's processor time, so that a program that is put off the
   processor by others isn't said to be slow: `cc -O2 -shared -fPIC -o cputime.so cputime.c`. */
#define _GNU_SOURCE
#include <sys/syscall.h>
#include <time.h>
#include <unistd.h>

int clock_gettime(clockid_t clock, struct timespec *time) {
    (void)clock;
    return (int)syscall(SYS_clock_gettime, CLOCK_THREAD_CPUTIME_ID, time);
}
