/* How many turns of a loop each processor makes in a nanosecond: of one whose turns wait for each other, and of one of
   six chains that don't. Where the host lets another thread use the same core, the second falls, and no
   stolen time tells of it. Word: how often each processor is looked at (1 to 1000). Prints a line for each processor:
   the least, the median and the greatest of the first, and of the second. */
#define _GNU_SOURCE
#include <sched.h>
#include <stdint.h>
#include <stdio.h>
#include <stdlib.h>
#include <time.h>
#include <unistd.h>

enum { TURNS = 10000000, MOST_PROCESSORS = 256, MOST_LOOKS = 1000 };

static double seconds(void) {
    struct timespec time;
    clock_gettime(CLOCK_MONOTONIC, &time);
    return time.tv_sec + time.tv_nsec / 1e9;
}

static void one_chain(void) {
    uint64_t value = 1;
    for (uint64_t i = 0; i < TURNS; i++) {
        value = value * 3 + 1;
        __asm__ volatile("" : "+r"(value));
    }
}

static void six_chains(void) {
    static uint64_t places[512];
    uint64_t a = 1, b = 2, c = 3, d = 4, e = 5, f = 6;
    for (uint64_t i = 0; i < TURNS; i++) {
        a += places[i & 511];
        b ^= places[(i + 64) & 511];
        c += i;
        d ^= i;
        e += 7;
        f ^= 9;
        __asm__ volatile("" : "+r"(a), "+r"(b), "+r"(c), "+r"(d), "+r"(e), "+r"(f));
    }
}

static double look(void (*loop)(void)) {
    double began = seconds();
    loop();
    return TURNS / (seconds() - began) / 1e9;
}

static int compare(const void *left, const void *right) {
    double a = *(const double *)left, b = *(const double *)right;
    return (a > b) - (a < b);
}

static void print(double *made, int looks) {
    qsort(made, looks, sizeof *made, compare);
    printf(" %9.2f %9.2f %9.2f", made[0], made[looks / 2], made[looks - 1]);
}

int main(int count, char **words) {
    static double one[MOST_PROCESSORS][MOST_LOOKS], six[MOST_PROCESSORS][MOST_LOOKS];
    long processors = sysconf(_SC_NPROCESSORS_ONLN);
    int looks = count == 2 ? atoi(words[1]) : 0;
    if (looks < 1 || looks > MOST_LOOKS || processors > MOST_PROCESSORS) {
        return 2;
    }
    for (int turn = 0; turn < looks; turn++) {
        for (long i = 0; i < processors; i++) {
            cpu_set_t set;
            CPU_ZERO(&set);
            CPU_SET(i, &set);
            if (sched_setaffinity(0, sizeof set, &set) != 0) {
                return 1;
            }
            one[i][turn] = look(one_chain);
            six[i][turn] = look(six_chains);
        }
    }
    for (long i = 0; i < processors; i++) {
        printf("processor %-16ld", i);
        print(one[i], looks);
        print(six[i], looks);
        printf("\n");
    }
    return 0;
}
