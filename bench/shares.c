// How much faster threads are than one on this machine, if they are started for a few milliseconds of work at a time.
//
//     gcc -O1 -pthread -o shares bench/shares.c
//     ./shares THREADS STEPS PHASES
//
// In each phase each thread takes so many steps of a generator, and one thread a fiftieth of them alone, as a command
// reads and writes alone between the blocks that its workers share out. The threads are started by halves, and the one
// that starts another has its own share (`working`), as in the program; or one thread starts all and waits (`waiting`).
// It prints the milliseconds of a phase, and how many times as fast as one thread that is.
#include <pthread.h>
#include <stdint.h>
#include <stdio.h>
#include <stdlib.h>
#include <time.h>

enum { MOST_THREADS = 64, ALONE = 50 };

typedef struct {
    int threads;
    long steps;
} Share;

static double seconds(void) {
    struct timespec now;
    clock_gettime(CLOCK_MONOTONIC, &now);
    return now.tv_sec + now.tv_nsec * 1e-9;
}

static void step(long steps) {
    volatile uint64_t kept;
    uint64_t state = steps;
    for (long each = 0; each < steps; each++) state = state * 6364136223846793005u + 1442695040888963407u;
    kept = state;
    (void)kept;
}

static void *work(void *given) {
    const Share *share = given;
    if (share->threads == 1) {
        step(share->steps);
        return NULL;
    }
    Share half = {share->threads / 2, share->steps}, rest = {share->threads - half.threads, share->steps};
    pthread_t other;
    pthread_create(&other, NULL, work, &half);
    work(&rest);
    pthread_join(other, NULL);
    return NULL;
}

static void work_and_wait(Share share) {
    pthread_t started[MOST_THREADS];
    Share one = {1, share.steps};
    for (int each = 0; each < share.threads; each++) pthread_create(&started[each], NULL, work, &one);
    for (int each = 0; each < share.threads; each++) pthread_join(started[each], NULL);
}

static void work_alone(Share share) {
    for (int each = 0; each < share.threads; each++) step(share.steps);
}

static void work_by_halves(Share share) {
    work(&share);
}

static double phase(void (*by)(Share), Share share, int phases) {
    double begin = seconds();
    for (int each = 0; each < phases; each++) {
        by(share);
        step(share.steps * share.threads / ALONE);
    }
    return (seconds() - begin) / phases;
}

int main(int count, char **words) {
    if (count != 4) return 2;
    Share share = {atoi(words[1]), atol(words[2])};
    int phases = atoi(words[3]);
    if (share.threads < 1 || share.threads > MOST_THREADS || share.steps < 1 || phases < 1) return 2;
    double alone = phase(work_alone, share, phases), working = phase(work_by_halves, share, phases);
    double waiting = phase(work_and_wait, share, phases);
    printf("working %.2f ms %.2f, waiting %.2f ms %.2f\n", working * 1e3, alone / working, waiting * 1e3, alone / waiting);
    return 0;
}
