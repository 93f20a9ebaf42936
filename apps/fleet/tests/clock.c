/* Another clock for a store: the two calls by which Redis asks for the time of day are moved by the seconds in the file that CLOCK_FILE names. For LD_PRELOAD. */
#include <stdio.h>
#include <stdlib.h>
#include <sys/time.h>
#include <time.h>

int gettimeofday(struct timeval *restrict at, void *restrict zone) {
    struct timespec now;
    long moved = 0;
    FILE *file = fopen(getenv("CLOCK_FILE"), "r");
    (void)zone;
    if (file && fscanf(file, "%ld", &moved) != 1) moved = 0;
    if (file) fclose(file);
    clock_gettime(CLOCK_REALTIME, &now);
    *at = (struct timeval){now.tv_sec + moved, now.tv_nsec / 1000};
    return 0;
}

time_t time(time_t *at) {
    struct timeval now;
    gettimeofday(&now, NULL);
    if (at) *at = now.tv_sec;
    return now.tv_sec;
}
