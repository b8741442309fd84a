/* What threads take that only hand calls over, as those of the command bench do: clients put an ask into the inbox of
   a partition, whose executor puts an answer into the client's slot. Inboxes and slots stand under mutexes, and who
   waits yields between two looks. In place of a call is a loop of so many nanoseconds, a sixth of it at the client.
   Before the first call the executors run alone, so that the system parts them, and then sleep while clients do, where
   these have four threads or more.
   Words: partitions (1 to 8), clients (1 to 64), calls of each client, nanoseconds, which threads stay on one processor
   each, dealt in turn (none, executors or all), and how many clients a thread has. Prints calls a second. */
#define _GNU_SOURCE
#include <pthread.h>
#include <sched.h>
#include <stdatomic.h>
#include <stdint.h>
#include <stdio.h>
#include <stdlib.h>
#include <string.h>
#include <time.h>
#include <unistd.h>

enum { MOST_PARTITIONS = 8, MOST_CLIENTS = 64, FEWEST_THREADS = 4, ALONE = 60 };

/* 144 bytes, as an item. */
struct ask {
    uint64_t client;
    uint64_t words[17];
};

/* 352 bytes, as a receipt. */
struct answer {
    uint64_t words[44];
};

struct inbox {
    pthread_mutex_t lock;
    int count;
    struct ask asks[MOST_CLIENTS];
};

struct slot {
    pthread_mutex_t lock;
    int is_full;
    struct answer answer;
};

static struct inbox inboxes[MOST_PARTITIONS];
static struct slot slots[MOST_CLIENTS];
static int partitions;
static int calls;
static int of_a_thread;
static uint64_t turns_of_executor;
static uint64_t turns_of_client;
static int executors_stay;
static int clients_stay;
/* Whether executors sleep while clients run alone. */
static int sleeps;
static double began;
static atomic_int are_apart;
static atomic_int awake;
static atomic_int may_begin;
static atomic_int ended;

static double seconds(void) {
    struct timespec time;
    clock_gettime(CLOCK_MONOTONIC, &time);
    return time.tv_sec + time.tv_nsec / 1e9;
}

static void work(uint64_t turns) {
    uint64_t value = turns;
    while (turns-- > 0) {
        value = value * 3 + 1;
        __asm__ volatile("" : "+r"(value));
    }
}

/* How many turns of work take a nanosecond, by the quickest of several measurements. */
static double turns_per_nanosecond(void) {
    uint64_t turns = 20000000;
    double most = 0;
    for (int i = 0; i < 10; i++) {
        double began = seconds();
        work(turns);
        double made = turns / (seconds() - began) / 1e9;
        most = made > most ? made : most;
    }
    return most;
}

/* Keeps the thread on the processor of this number, counted round. */
static void stay_on(uint64_t number) {
    cpu_set_t set;
    CPU_ZERO(&set);
    CPU_SET(number % sysconf(_SC_NPROCESSORS_ONLN), &set);
    if (sched_setaffinity(0, sizeof set, &set) != 0) {
        exit(1);
    }
}

static void put_ask(struct inbox *inbox, const struct ask *ask) {
    pthread_mutex_lock(&inbox->lock);
    inbox->asks[inbox->count++] = *ask;
    pthread_mutex_unlock(&inbox->lock);
}

/* Takes all asks that wait: how many. */
static int take_asks(struct inbox *inbox, struct ask *asks) {
    pthread_mutex_lock(&inbox->lock);
    int count = inbox->count;
    memcpy(asks, inbox->asks, count * sizeof *asks);
    inbox->count = 0;
    pthread_mutex_unlock(&inbox->lock);
    return count;
}

static void put_answer(struct slot *slot, const struct answer *answer) {
    pthread_mutex_lock(&slot->lock);
    slot->answer = *answer;
    slot->is_full = 1;
    pthread_mutex_unlock(&slot->lock);
}

/* Takes the answer, if it is there: whether it was. */
static int take_answer(struct slot *slot, struct answer *answer) {
    pthread_mutex_lock(&slot->lock);
    int was_full = slot->is_full;
    if (was_full) {
        *answer = slot->answer;
        slot->is_full = 0;
    }
    pthread_mutex_unlock(&slot->lock);
    return was_full;
}

/* For how many milliseconds executors run alone, and then clients. */
static void pause_alone(void) {
    struct timespec time = {0, ALONE * 1000000};
    nanosleep(&time, NULL);
}

/* Parts the executors. The last that is awake lets the clients begin. */
static void prepare_executor(void) {
    while (!atomic_load(&are_apart)) {
        sched_yield();
    }
    if (sleeps) {
        pause_alone();
    }
    if (atomic_fetch_add(&awake, 1) == partitions - 1) {
        began = seconds();
        atomic_store(&may_begin, 1);
    }
}

static void *run_executor(void *inbox) {
    struct ask asks[MOST_CLIENTS];
    struct answer answer;
    memset(&answer, 1, sizeof answer);
    if (executors_stay) {
        stay_on((struct inbox *)inbox - inboxes);
    }
    prepare_executor();
    while (!atomic_load(&ended)) {
        int count = take_asks(inbox, asks);
        for (int i = 0; i < count; i++) {
            work(turns_of_executor);
            put_answer(&slots[asks[i].client], &answer);
        }
        if (count == 0) {
            sched_yield();
        }
    }
    return NULL;
}

/* A client and where it is: how many calls it has yet to make, and whether it waits for an answer. */
struct client {
    uint64_t number;
    int left;
    int waits;
    uint64_t random;
};

/* Goes on with a client, if it can: whether it could. */
static int go_on(struct client *client) {
    struct ask ask;
    struct answer answer;
    if (client->waits) {
        client->waits = !take_answer(&slots[client->number], &answer);
        return !client->waits;
    }
    if (client->left == 0) {
        return 0;
    }
    client->left--;
    work(turns_of_client);
    client->random = client->random * 6364136223846793005u + 1442695040888963407u;
    memset(&ask, 1, sizeof ask);
    ask.client = client->number;
    put_ask(&inboxes[(client->random >> 33) % partitions], &ask);
    client->waits = 1;
    return 1;
}

/* Makes the calls of the clients from this number on that are one thread's. */
static void *run_clients(void *number) {
    struct client own[MOST_CLIENTS];
    uint64_t first = (uintptr_t)number;
    if (clients_stay) {
        stay_on(first / of_a_thread);
    }
    for (int i = 0; i < of_a_thread; i++) {
        own[i] = (struct client){first + i, calls, 0, first + i};
    }
    while (!atomic_load(&may_begin)) {
        sched_yield();
    }
    for (int busy = 1; busy > 0;) {
        int went_on = 0;
        busy = 0;
        for (int i = 0; i < of_a_thread; i++) {
            went_on += go_on(&own[i]);
            busy += own[i].waits || own[i].left > 0;
        }
        if (went_on == 0) {
            sched_yield();
        }
    }
    return NULL;
}

/* Starts a thread, or ends the program. */
static pthread_t start(void *(*run)(void *), void *with) {
    pthread_t thread;
    if (pthread_create(&thread, NULL, run, with) != 0) {
        exit(1);
    }
    return thread;
}

int main(int count, char **words) {
    if (count != 7) {
        return 2;
    }
    partitions = atoi(words[1]);
    int clients = atoi(words[2]);
    calls = atoi(words[3]);
    double turns = atof(words[4]) * turns_per_nanosecond();
    of_a_thread = atoi(words[6]);
    if (partitions < 1 || partitions > MOST_PARTITIONS || clients < 1 || clients > MOST_CLIENTS || of_a_thread < 1 ||
        clients % of_a_thread != 0) {
        return 2;
    }
    clients_stay = strcmp(words[5], "all") == 0;
    executors_stay = clients_stay || strcmp(words[5], "executors") == 0;
    turns_of_executor = turns * 5 / 6;
    turns_of_client = turns / 6;

    pthread_t executors[MOST_PARTITIONS];
    pthread_t threads[MOST_CLIENTS];
    for (int i = 0; i < partitions; i++) {
        pthread_mutex_init(&inboxes[i].lock, NULL);
    }
    for (int i = 0; i < clients; i++) {
        pthread_mutex_init(&slots[i].lock, NULL);
    }
    for (int i = 0; i < partitions; i++) {
        executors[i] = start(run_executor, &inboxes[i]);
    }
    sleeps = clients / of_a_thread >= FEWEST_THREADS;
    pause_alone();
    atomic_store(&are_apart, 1);
    for (int i = 0; i < clients; i += of_a_thread) {
        threads[i] = start(run_clients, (void *)(uintptr_t)i);
    }
    for (int i = 0; i < clients; i += of_a_thread) {
        pthread_join(threads[i], NULL);
    }
    double ran = seconds() - began;
    atomic_store(&ended, 1);
    for (int i = 0; i < partitions; i++) {
        pthread_join(executors[i], NULL);
    }
    printf("%.0f\n", (double)clients * calls / ran);
    return 0;
}
