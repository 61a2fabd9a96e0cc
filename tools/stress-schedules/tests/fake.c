// A program with the words and threads of `shrinkers` and none of its work: each command adds 1 to a counter that all share, and
// its answer is what it found. The tests of tools/stress run it, since it can be built at once.
//
// A `get` waits until a command has come. An `offline` waits for ever by sched_yield, and a `balance` in the kernel.
#include <pthread.h>
#include <sched.h>
#include <stdatomic.h>
#include <stdio.h>
#include <stdlib.h>
#include <string.h>
#include <unistd.h>

#define MOST 64

static atomic_long *counter; // on the heap, so that no instruction finds it by its own place
static char *commands[MOST][MOST];
static long found[MOST][MOST];
static int workers, counts[MOST];

static void run_worker(int worker) {
    for (int k = 0; k < counts[worker]; k++) {
        while (!strncmp(commands[worker][k], "get ", 4) && atomic_load(counter) == 0)
            sched_yield();
        while (!strncmp(commands[worker][k], "offline ", 8))
            sched_yield();
        while (!strncmp(commands[worker][k], "balance ", 8))
            pause();
        found[worker][k] = atomic_fetch_add(counter, 1);
    }
}

struct range {
    int low, high;
};

static void *run_range(void *given) {
    struct range own = *(struct range *)given, given_away;
    pthread_t thread;
    if (own.high - own.low < 2) {
        run_worker(own.low);
        return NULL;
    }
    given_away = (struct range){own.low, own.low + (own.high - own.low) / 2};
    own.low = given_away.high;
    if (pthread_create(&thread, NULL, run_range, &given_away))
        exit(6);
    run_range(&own);
    pthread_join(thread, NULL);
    return NULL;
}

static void read_script(void) {
    static char line[512];
    while (fgets(line, sizeof line, stdin)) {
        if (!strcmp(line, "worker\n"))
            workers++;
        else if (workers && strcmp(line, "end\n"))
            commands[workers - 1][counts[workers - 1]++] = strdup(line);
    }
}

static void write_report(void) {
    long all = atomic_load(counter);
    printf("report 1\nsize 1 1\n");
    for (int w = 0; w < workers; w++)
        for (int k = 0; k < counts[w]; k++)
            printf("reply %d %d walked %ld\n", w, k, found[w][k]);
    for (long number = 0; number < all; number++)
        for (int w = 0; w < workers; w++)
            for (int k = 0; k < counts[w]; k++)
                if (found[w][k] == number)
                    printf("use 0 %ld + 0 %d %d\n", number, w, k);
    printf("end\n");
}

int main(int count, char **words) {
    if (count > 1 && !strcmp(words[1], "audit")) {
        puts(getenv("FAKE_VERDICT") ? getenv("FAKE_VERDICT") : "lawful");
        return 0;
    }
    counter = calloc(1, sizeof *counter);
    read_script();
    if (getenv("FAKE_REFUSES")) {
        puts("refused 3 BadWord");
        return 5;
    }
    run_range(&(struct range){0, workers});
    write_report();
    return 0;
}
