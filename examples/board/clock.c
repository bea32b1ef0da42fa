// What `clock` and `time` of picolibc ask for. No instruction and no call of the machine tells the time, so both answer -1,
// by which C says that there is none. How long a function takes is in the profile.
#include <sys/time.h>
#include <sys/times.h>

__attribute__((weak)) clock_t times(struct tms *spent) {
    (void)spent;
    return (clock_t)-1;
}

__attribute__((weak)) int gettimeofday(struct timeval *restrict now, void *restrict zone) {
    (void)zone;
    if (now)
        *now = (struct timeval){0};
    return -1;
}
