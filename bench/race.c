/* The jobs that bench/race.sh times, in C on the Boehm collector, with no proof. Each task is a thread. Its job makes an
   object of one reference and three numbers, writes its own number there and a reference to the board, hangs the object on
   the board, and reads the number of the object that the next task has there. Words: the number of tasks, 1 to 8, the jobs
   of each, and `longest` if the longest job is to be timed. Prints the jobs; the longest time from the end of a job to that
   of the next one, if it was timed; the collections, and the longest time for which one stopped all threads. */
#define GC_THREADS
#include <gc.h>
#include <inttypes.h>
#include <pthread.h>
#include <stdatomic.h>
#include <stdbool.h>
#include <stdint.h>
#include <stdio.h>
#include <stdlib.h>
#include <string.h>
#include <time.h>

#define TASKS 8

struct object {
    _Atomic(void *) reference;
    _Atomic uint64_t numbers[3];
};

struct board {
    _Atomic(struct object *) references[TASKS];
};

struct task {
    pthread_t thread;
    unsigned seat;
    uint64_t sum;
    uint64_t longest;
};

static struct board *board;
static unsigned tasks;
static uint64_t jobs;
static bool is_timed;
static uint64_t collections, stopped_at, longest_stop;

static uint64_t now(void)
{
    struct timespec time;
    clock_gettime(CLOCK_MONOTONIC, &time);
    return (uint64_t)time.tv_sec * 1000000000 + (uint64_t)time.tv_nsec;
}

/* The collector calls this with its lock held. */
static void GC_CALLBACK event(GC_EventType type)
{
    if (type == GC_EVENT_PRE_STOP_WORLD) {
        stopped_at = now();
    } else if (type == GC_EVENT_POST_START_WORLD) {
        uint64_t stop = now() - stopped_at;
        collections += 1;
        longest_stop = stop > longest_stop ? stop : longest_stop;
    }
}

static void do_job(struct task *task, uint64_t job)
{
    struct object *own = GC_MALLOC(sizeof *own);
    if (own == NULL)
        abort();
    atomic_store(&own->numbers[0], job);
    atomic_store(&own->reference, (void *)board);
    atomic_store(&board->references[task->seat], own);
    struct object *other = atomic_load(&board->references[(task->seat + 1) % tasks]);
    if (other != NULL)
        task->sum += atomic_load(&other->numbers[0]);
}

static void *work(void *pointer)
{
    struct task *task = pointer;
    uint64_t before = now();
    for (uint64_t job = 0; job < jobs; job++) {
        do_job(task, job);
        if (is_timed) {
            uint64_t after = now();
            task->longest = after - before > task->longest ? after - before : task->longest;
            before = after;
        }
    }
    return NULL;
}

int main(int count, char **words)
{
    if (count < 3)
        return 2;
    tasks = (unsigned)atoi(words[1]);
    jobs = strtoull(words[2], NULL, 10);
    is_timed = count > 3 && strcmp(words[3], "longest") == 0;
    GC_INIT();
    GC_set_on_collection_event(event);
    board = GC_MALLOC(sizeof *board);
    static struct task all[TASKS];
    for (unsigned seat = 0; seat < tasks; seat++) {
        all[seat].seat = seat;
        if (pthread_create(&all[seat].thread, NULL, work, &all[seat]) != 0)
            abort();
    }
    uint64_t longest = 0, sum = 0;
    for (unsigned seat = 0; seat < tasks; seat++) {
        pthread_join(all[seat].thread, NULL);
        longest = all[seat].longest > longest ? all[seat].longest : longest;
        sum += all[seat].sum;
    }
    printf("jobs %" PRIu64 " longest %" PRIu64 " ns collections %" PRIu64 " longest stop %" PRIu64 " ns sum %" PRIu64 "\n",
           tasks * jobs, longest, collections, longest_stop, sum);
    return 0;
}
