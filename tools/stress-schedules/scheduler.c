// Runs one thread of the program at a time, and says at each step which thread goes on.
//
// tools/stress loads this library into the built program (LD_PRELOAD). A thread passes its turn on at a *step* only: an atomic
// instruction that reads and writes, the making, the joining and the end of a thread, and sched_yield, which a waiting thread
// calls. Between two steps a thread does what the memory that it reads tells it, so the same choices give the same bytes.
//
// The words of the environment:
//   SHRINKERS_SITES     a file with a line `OFFSET LENGTH KIND FUNCTION` for each atomic instruction; KIND is c for compare and
//                       exchange
//   SHRINKERS_WORKERS   how many workers the script has
//   SHRINKERS_SEED      draw each choice from this seed, or
//   SHRINKERS_SCHEDULE  switch as this list says: `WORKER:STEP:NEXT,..`; a thread that waits or ends gives its turn to the next
//   SHRINKERS_TRACE     say each step at the end
//   SHRINKERS_SECONDS   how long the process may take
//
// A thread has the number of the worker that it runs. The program gives the workers to threads by halves: the lower half goes to
// a new thread, the upper half stays. So a thread that begins with the workers LOW to HIGH-1 ends with worker HIGH-1.
#define _GNU_SOURCE
#include <dlfcn.h>
#include <errno.h>
#include <linux/futex.h>
#include <pthread.h>
#include <signal.h>
#include <stdint.h>
#include <stdio.h>
#include <stdlib.h>
#include <string.h>
#include <sys/syscall.h>
#include <unistd.h>

#include "scheduler.h"

#define MOST_THREADS 512
#define MOST_SWITCHES 4096
#define MOST_TRACED (1 << 20)
#define MOST_STEPS 20000000L

struct thread {
    int is_there, has_ended;
    int joins;     // the thread whose end it waits for, or -1
    int low, high; // the workers that it has not given away
    int go;        // 1 if it has the turn and hasn't taken it; a futex
    long steps;    // how many steps it made while another thread was there
    pthread_t id;
};

struct choice {
    int who, next;
    long step;
};

struct traced {
    int site;
    short who, next;
    long step;
    uint64_t others; // which of the first 64 threads could go on
    char kind, has_missed;
};

// Only the thread that has the turn reads and writes what follows.
static struct thread threads[MOST_THREADS];
static int workers, thread_count, living = 1;
static struct choice wanted[MOST_SWITCHES], made[MOST_SWITCHES];
static int wanted_count, wanted_used, made_count, is_seeded, is_traced;
static struct traced trace[MOST_TRACED];
static long trace_count, last_traced[MOST_THREADS];
static long steps, switches;
static struct {
    int who, site;
} misses[MOST_SWITCHES];
static int missed; // how many exchanges missed; the first MOST_SWITCHES are told
static uint64_t random_state;
static double chance;

static __thread int me __attribute__((tls_model("initial-exec")));
static int (*real_create)(pthread_t *, const pthread_attr_t *, void *(*)(void *), void *);
static int (*real_join)(pthread_t, void **);

__attribute__((noreturn)) static void leave(int status) {
    syscall(SYS_exit_group, status);
    __builtin_unreachable();
}

void give_up(int status, const char *reason) {
    ssize_t ignored = write(2, "scheduler: ", 11);
    ignored = write(2, reason, strlen(reason));
    ignored = write(2, "\n", 1);
    (void)ignored;
    leave(status);
}

// xorshift64*
static uint32_t draw(void) {
    random_state ^= random_state << 13;
    random_state ^= random_state >> 7;
    random_state ^= random_state << 17;
    return (random_state * 0x2545F4914F6CDD1Dull) >> 32;
}

static void seed(uint64_t number) {
    static const double chances[] = {0.05, 0.15, 0.3, 0.6};
    chance = chances[number % 4];
    random_state = (number * 2 + 1) * 0x9E3779B97F4A7C15ull;
    for (int i = 0; i < 8; i++)
        draw();
}

static void give(int next) {
    switches++;
    __atomic_store_n(&threads[next].go, 1, __ATOMIC_SEQ_CST);
    syscall(SYS_futex, &threads[next].go, FUTEX_WAKE_PRIVATE, 1, 0, 0, 0);
}

static void take(void) {
    while (!__atomic_exchange_n(&threads[me].go, 0, __ATOMIC_SEQ_CST))
        syscall(SYS_futex, &threads[me].go, FUTEX_WAIT_PRIVATE, 0, 0, 0, 0);
}

static int can_go_on(int who) {
    struct thread *it = &threads[who];
    return it->is_there && !it->has_ended && (it->joins < 0 || threads[it->joins].has_ended);
}

// The next thread in turn that can go on; this one if no other can.
static int next_in_turn(void) {
    for (int i = 1; i <= thread_count; i++) {
        int who = (me + i) % thread_count;
        if (who != me && can_go_on(who))
            return who;
    }
    return me;
}

// At the making of a thread each may go on alike, so a run begins with any worker; at an atomic step mostly the same goes on.
static int choose_by_seed(enum kind kind) {
    int able[MOST_THREADS], count = 0, is_free = kind == STEP || kind == MADE;
    if (kind == STEP && draw() >= chance * 4294967296.0)
        return me;
    for (int who = 0; who < thread_count; who++)
        if (can_go_on(who) && (is_free || who != me))
            able[count++] = who;
    return count ? able[draw() % count] : me;
}

static int choose_by_list(int usual) {
    for (int i = 0; i < wanted_count; i++) {
        struct choice *it = &wanted[i];
        if (it->who == me && it->step == threads[me].steps && it->next < thread_count && can_go_on(it->next)) {
            wanted_used++;
            return it->next;
        }
    }
    return usual;
}

static void note(enum kind kind, int site, int next) {
    if (trace_count == MOST_TRACED)
        return;
    struct traced *it = &trace[trace_count];
    *it = (struct traced){.site = site, .who = me, .next = next, .step = threads[me].steps, .kind = kind};
    for (int who = 0; who < thread_count && who < 64; who++)
        if (who != me && can_go_on(who))
            it->others |= 1ull << who;
    last_traced[me] = trace_count++;
}

void note_miss(int site) {
    if (missed < MOST_SWITCHES) {
        misses[missed].who = me;
        misses[missed].site = site;
    }
    missed++;
    if (is_traced && trace_count)
        trace[last_traced[me]].has_missed = 1;
}

// One step of this thread, after which another may go on.
void step(enum kind kind, int site) {
    if (living < 2 && kind != ENDS && kind != JOINS)
        return;
    int is_free = kind == STEP || kind == MADE;
    int usual = is_free ? me : next_in_turn();
    threads[me].steps++;
    if (++steps > MOST_STEPS)
        give_up(TOO_MANY, "20,000,000 steps, and no end: some threads wait for each other");
    int next = is_seeded ? choose_by_seed(kind) : choose_by_list(usual);
    if (is_traced)
        note(kind, site, next);
    if (next != usual && made_count < MOST_SWITCHES)
        made[made_count++] = (struct choice){.who = me, .next = next, .step = threads[me].steps};
    if (next == me) {
        if (kind == ENDS || kind == JOINS)
            give_up(ALL_WAIT, "no thread can go on");
        return;
    }
    give(next);
    if (kind != ENDS)
        take();
}

struct start {
    void *(*body)(void *);
    void *argument;
    int slot;
};

static void *run_thread(void *given) {
    struct start start = *(struct start *)given;
    free(given);
    me = start.slot;
    take();
    void *result = start.body(start.argument);
    living--;
    threads[me].has_ended = 1;
    step(ENDS, -1);
    return result;
}

static int is_free_slot(int slot) {
    return !threads[slot].is_there || (threads[slot].has_ended && slot >= workers);
}

// A slot for a new thread, and the workers that it takes from this one.
static int slot_for(int *low, int *high) {
    struct thread *own = &threads[me];
    *low = *high = 0;
    int given = (own->high - own->low) / 2;
    if (given > 0 && is_free_slot(own->low + given - 1)) {
        *low = own->low;
        *high = own->low += given;
        return *high - 1;
    }
    for (int slot = workers; slot < MOST_THREADS; slot++)
        if (is_free_slot(slot))
            return slot;
    return -1;
}

int pthread_create(pthread_t *id, const pthread_attr_t *attributes, void *(*body)(void *), void *argument) {
    int low, high, slot = slot_for(&low, &high);
    struct start *start = slot < 0 ? NULL : malloc(sizeof *start);
    if (!start)
        return EAGAIN;
    *start = (struct start){body, argument, slot};
    long before = threads[slot].steps;
    threads[slot] = (struct thread){.is_there = 1, .joins = -1, .low = low, .high = high, .steps = before};
    int status = real_create(id, attributes, run_thread, start);
    if (status) {
        threads[slot].is_there = 0;
        free(start);
        return status;
    }
    threads[slot].id = *id;
    if (slot >= thread_count)
        thread_count = slot + 1;
    living++;
    step(MADE, -1);
    return 0;
}

int pthread_join(pthread_t id, void **result) {
    for (int slot = 0; slot < thread_count; slot++) {
        struct thread *it = &threads[slot];
        if (slot == me || !it->is_there || !pthread_equal(it->id, id))
            continue;
        threads[me].joins = slot;
        while (!it->has_ended)
            step(JOINS, -1);
        threads[me].joins = -1;
        it->is_there = 0;
        if (it->high == threads[me].low && it->high > it->low)
            threads[me].low = it->low;
        break;
    }
    return real_join(id, result);
}

int sched_yield(void) {
    step(WAITS, -1);
    return 0;
}

static void tell_trace(void) {
    FILE *out = fdopen(2, "w");
    if (!out)
        return;
    for (long i = 0; i < trace_count; i++) {
        struct traced *it = &trace[i];
        fprintf(out, "t %d %ld %c %d %d %lx %d\n", it->who, it->step, it->kind, it->site, it->has_missed, it->others, it->next);
    }
    if (trace_count == MOST_TRACED)
        fprintf(out, "scheduler: more steps than can be told\n");
    fflush(out);
}

static void tell(void) {
    dprintf(2, "scheduler steps %ld switches %ld missed %d unused %d\n", steps, switches, missed, wanted_count - wanted_used);
    for (int i = 0; i < missed && i < MOST_SWITCHES; i++)
        dprintf(2, "missed %d %d\n", misses[i].who, misses[i].site);
    if (made_count < MOST_SWITCHES) {
        dprintf(2, "scheduler schedule ");
        for (int i = 0; i < made_count; i++)
            dprintf(2, "%s%d:%ld:%d", i ? "," : "", made[i].who, made[i].step, made[i].next);
        dprintf(2, "\n");
    }
    if (is_traced)
        tell_trace();
}

// The program ends by _exit; one that returns from main comes by the destructor.
void _exit(int status) {
    tell();
    leave(status);
}

__attribute__((destructor)) static void end(void) {
    tell();
}

static void on_alarm(int number) {
    (void)number;
    give_up(TOO_LONG, "no end in the time that it has: the thread that has the turn waits outside of its steps, or the script is long");
}

static void read_schedule(const char *text) {
    while (*text) {
        struct choice *it = &wanted[wanted_count];
        int length = 0;
        if (wanted_count == MOST_SWITCHES || sscanf(text, "%d:%ld:%d%n", &it->who, &it->step, &it->next, &length) != 3)
            give_up(UNREADY, "SHRINKERS_SCHEDULE isn't a list of WORKER:STEP:NEXT");
        wanted_count++;
        text += length;
        text += *text == ',';
    }
}

__attribute__((constructor)) static void begin(void) {
    const char *path = getenv("SHRINKERS_SITES"), *count = getenv("SHRINKERS_WORKERS");
    const char *number = getenv("SHRINKERS_SEED"), *list = getenv("SHRINKERS_SCHEDULE"), *seconds = getenv("SHRINKERS_SECONDS");
    real_create = (int (*)(pthread_t *, const pthread_attr_t *, void *(*)(void *), void *))dlsym(RTLD_NEXT, "pthread_create");
    real_join = (int (*)(pthread_t, void **))dlsym(RTLD_NEXT, "pthread_join");
    workers = count ? atoi(count) : 1;
    if (!path || workers < 1 || workers > 64)
        give_up(UNREADY, "SHRINKERS_SITES and SHRINKERS_WORKERS (1 to 64) are wanted");
    me = workers - 1;
    thread_count = workers;
    threads[me] = (struct thread){.is_there = 1, .joins = -1, .high = workers, .id = pthread_self()};
    is_seeded = number != NULL;
    is_traced = getenv("SHRINKERS_TRACE") != NULL;
    if (number)
        seed(strtoull(number, NULL, 10));
    else if (list)
        read_schedule(list);
    signal(SIGALRM, on_alarm);
    alarm(seconds ? atoi(seconds) : 20);
    set_breakpoints(path);
}
