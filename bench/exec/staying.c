// A library to be loaded before a program whose main thread makes and joins all others: a thread that was joined stays, and runs
// what the next one would have run.
#define _GNU_SOURCE
#include <dlfcn.h>
#include <pthread.h>
#include <stdlib.h>

enum state { IDLE, GIVEN, DONE };

struct worker {
    pthread_t thread;
    pthread_mutex_t lock;
    pthread_cond_t given, done;
    void *(*call)(void *);
    void *argument, *result;
    enum state state;
    struct worker *next;
};

static struct worker *idle, *busy;

static void *work(void *it) {
    struct worker *worker = it;
    for (;;) {
        pthread_mutex_lock(&worker->lock);
        while (worker->state != GIVEN)
            pthread_cond_wait(&worker->given, &worker->lock);
        pthread_mutex_unlock(&worker->lock);
        void *result = worker->call(worker->argument);
        pthread_mutex_lock(&worker->lock);
        worker->result = result;
        worker->state = DONE;
        pthread_cond_signal(&worker->done);
        pthread_mutex_unlock(&worker->lock);
    }
    return it;
}

static struct worker *made(const pthread_attr_t *attributes, int *refused) {
    int (*real)(pthread_t *, const pthread_attr_t *, void *(*)(void *), void *) = dlsym(RTLD_NEXT, "pthread_create");
    struct worker *worker = calloc(1, sizeof *worker);
    pthread_mutex_init(&worker->lock, 0);
    pthread_cond_init(&worker->given, 0);
    pthread_cond_init(&worker->done, 0);
    *refused = real(&worker->thread, attributes, work, worker);
    return worker;
}

int pthread_create(pthread_t *thread, const pthread_attr_t *attributes, void *(*call)(void *), void *argument) {
    int refused = 0;
    struct worker *worker = idle;
    if (worker)
        idle = worker->next;
    else
        worker = made(attributes, &refused);
    if (refused)
        return refused;
    pthread_mutex_lock(&worker->lock);
    worker->call = call;
    worker->argument = argument;
    worker->state = GIVEN;
    pthread_cond_signal(&worker->given);
    pthread_mutex_unlock(&worker->lock);
    worker->next = busy;
    busy = worker;
    *thread = worker->thread;
    return 0;
}

int pthread_join(pthread_t thread, void **result) {
    struct worker **at = &busy;
    while (!pthread_equal((*at)->thread, thread))
        at = &(*at)->next;
    struct worker *worker = *at;
    pthread_mutex_lock(&worker->lock);
    while (worker->state != DONE)
        pthread_cond_wait(&worker->done, &worker->lock);
    pthread_mutex_unlock(&worker->lock);
    if (result)
        *result = worker->result;
    *at = worker->next;
    worker->state = IDLE;
    worker->next = idle;
    idle = worker;
    return 0;
}
