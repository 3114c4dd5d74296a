#include "signing.h"

#include "process.h"

#include <pthread.h>
#include <sched.h>
#include <stdbool.h>

/* a thread's stack is locked in memory as a whole */
enum { MOST_THREADS = 63, STACK_OCTETS = 256 << 10, SECONDS_FOR_SIGNATURE = 8 };

static struct {
    pthread_mutex_t lock;
    pthread_cond_t has_work, is_done;
    const struct key *key;
    struct task *tasks;
    /* of the tasks at hand: all, those that somebody took, and those that are done */
    size_t count, taken, done;
    bool is_ending;
    pthread_t threads[MOST_THREADS];
    size_t thread_count;
} work = {.lock = PTHREAD_MUTEX_INITIALIZER, .has_work = PTHREAD_COND_INITIALIZER, .is_done = PTHREAD_COND_INITIALIZER};

/* Signs for the tasks at hand, as long as there are some that nobody took; whoever calls it holds the lock. */
static void take_tasks(void)
{
    while (work.taken < work.count) {
        struct task *task = &work.tasks[work.taken++];
        pthread_mutex_unlock(&work.lock);
        if (work.key->is_in_device)
            expect_device(SECONDS_FOR_SIGNATURE);
        task->length = sign(work.key, task->text, task->text_length, task->signature, task->room);
        pthread_mutex_lock(&work.lock);
        if (++work.done == work.count)
            pthread_cond_signal(&work.is_done);
    }
}

static void *work_on(void *unused)
{
    pthread_mutex_lock(&work.lock);
    while (!work.is_ending) {
        take_tasks();
        pthread_cond_wait(&work.has_work, &work.lock);
    }
    pthread_mutex_unlock(&work.lock);
    return unused;
}

static size_t count_processors(void)
{
    cpu_set_t processors;
    int count = sched_getaffinity(0, sizeof processors, &processors) ? 1 : CPU_COUNT(&processors);
    return count > 0 ? (size_t)count : 1;
}

size_t begin_threads(const struct key *key)
{
    size_t wanted = key->is_in_device ? 0 : count_processors() - 1;
    pthread_attr_t attributes;
    pthread_attr_init(&attributes);
    pthread_attr_setstacksize(&attributes, STACK_OCTETS);
    work.key = key;
    while (work.thread_count < wanted && work.thread_count < MOST_THREADS
        && pthread_create(&work.threads[work.thread_count], &attributes, work_on, NULL) == 0)
        work.thread_count++;
    pthread_attr_destroy(&attributes);
    return work.thread_count + 1;
}

void sign_all(const struct key *key, struct task *tasks, size_t count)
{
    pthread_mutex_lock(&work.lock);
    work.key = key;
    work.tasks = tasks;
    work.count = count;
    work.taken = work.done = 0;
    /* this thread signs too */
    for (size_t waked = 1; waked < count && waked <= work.thread_count; waked++)
        pthread_cond_signal(&work.has_work);
    take_tasks();
    while (work.done < work.count)
        pthread_cond_wait(&work.is_done, &work.lock);
    work.count = work.taken = 0;
    pthread_mutex_unlock(&work.lock);
    expect_nothing();
}

void end_threads(void)
{
    pthread_mutex_lock(&work.lock);
    work.is_ending = true;
    pthread_cond_broadcast(&work.has_work);
    pthread_mutex_unlock(&work.lock);
    while (work.thread_count > 0)
        pthread_join(work.threads[--work.thread_count], NULL);
}
