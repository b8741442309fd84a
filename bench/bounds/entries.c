/* What the entries of a million calls take: each is written to the end of one of 1,563 logs, one for each extent of
   100,000 subscribers, and to the end of one list, as the completed calls of the whole are. Both grow to twice their
   length, and nothing else is done. Prints seconds. */
#include <stdint.h>
#include <stdio.h>
#include <stdlib.h>
#include <string.h>
#include <time.h>

enum { CALLS = 1000000, LOGS = 1563 };

/* 464 bytes, as an entry. */
struct entry {
    uint64_t words[58];
};

struct list {
    struct entry *entries;
    size_t count;
    size_t room;
};

static struct list completions;
static struct list logs[LOGS];

static double seconds(void) {
    struct timespec time;
    clock_gettime(CLOCK_MONOTONIC, &time);
    return time.tv_sec + time.tv_nsec / 1e9;
}

static void push(struct list *list, const struct entry *entry) {
    if (list->count == list->room) {
        list->room = list->room == 0 ? 4 : 2 * list->room;
        list->entries = realloc(list->entries, list->room * sizeof *entry);
        if (list->entries == NULL) {
            exit(1);
        }
    }
    list->entries[list->count++] = *entry;
}

int main(void) {
    struct entry entry;
    uint64_t random = 1;
    memset(&entry, 1, sizeof entry);
    double began = seconds();
    for (uint64_t i = 0; i < CALLS; i++) {
        random = random * 6364136223846793005u + 1442695040888963407u;
        entry.words[0] = i;
        push(&logs[(random >> 33) % LOGS], &entry);
        push(&completions, &entry);
    }
    printf("%.2f\n", seconds() - began);
    return 0;
}
