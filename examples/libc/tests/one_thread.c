/* What is meant for threads, and for what is loaded at run time, in a program of one thread. The
   exit status is the number of the first thing that is not so.
   ends: 0 */
#define _GNU_SOURCE
#include <dlfcn.h>
#include <errno.h>
#include <pthread.h>
#include <semaphore.h>
#include <stdlib.h>
#include <string.h>
#include <threads.h>
#include <time.h>

#define CHECK(condition) \
    do { \
        if (!(condition)) \
            exit(__LINE__ & 127); \
    } while (0)

static int calls, cleaned, dropped;

static void *body(void *argument)
{
    return argument;
}

static int other_body(void *argument)
{
    return argument != NULL;
}

static void call(void)
{
    calls++;
}

static void clean(void *argument)
{
    cleaned += *(int *)argument;
}

static void drop(void *argument)
{
    dropped += *(int *)argument;
}

static void threads(void)
{
    pthread_t thread;
    pthread_attr_t wanted;
    thrd_t other;
    CHECK(pthread_attr_init(&wanted) == 0 && pthread_attr_setstacksize(&wanted, 65536) == 0);
    CHECK(pthread_create(&thread, NULL, body, NULL) == EAGAIN);
    CHECK(pthread_create(&thread, &wanted, body, NULL) == EAGAIN);
    CHECK(thrd_create(&other, other_body, NULL) == thrd_nomem);
    CHECK(pthread_equal(pthread_self(), pthread_self()) && pthread_attr_destroy(&wanted) == 0);
    CHECK(pthread_cancel(pthread_self()) == ESRCH);
}

static void locks(void)
{
    static pthread_mutex_t lock = PTHREAD_MUTEX_INITIALIZER;
    static pthread_once_t once = PTHREAD_ONCE_INIT;
    pthread_mutex_t again;
    pthread_mutexattr_t kind;
    pthread_rwlock_t readers;
    struct timespec late = {100, 0};
    CHECK(pthread_mutex_lock(&lock) == 0 && pthread_mutex_trylock(&lock) == EBUSY);
    CHECK(pthread_mutex_timedlock(&lock, &late) == ETIMEDOUT && pthread_mutex_unlock(&lock) == 0);
    CHECK(pthread_mutexattr_init(&kind) == 0);
    CHECK(pthread_mutexattr_settype(&kind, PTHREAD_MUTEX_RECURSIVE) == 0);
    CHECK(pthread_mutex_init(&again, &kind) == 0);
    CHECK(pthread_mutex_lock(&again) == 0 && pthread_mutex_lock(&again) == 0);
    CHECK(pthread_mutex_unlock(&again) == 0 && pthread_mutex_unlock(&again) == 0);
    CHECK(pthread_mutex_unlock(&again) == EPERM && pthread_mutex_destroy(&again) == 0);
    CHECK(pthread_rwlock_init(&readers, NULL) == 0 && pthread_rwlock_rdlock(&readers) == 0);
    CHECK(pthread_rwlock_trywrlock(&readers) == EBUSY && pthread_rwlock_unlock(&readers) == 0);
    CHECK(pthread_once(&once, call) == 0 && pthread_once(&once, call) == 0 && calls == 1);
}

static void waits(void)
{
    pthread_mutex_t lock = PTHREAD_MUTEX_INITIALIZER;
    pthread_cond_t changed = PTHREAD_COND_INITIALIZER;
    pthread_barrier_t barrier;
    struct timespec late = {100, 0}, wrong = {100, 1000000000};
    sem_t count;
    CHECK(pthread_cond_signal(&changed) == 0 && pthread_cond_broadcast(&changed) == 0);
    CHECK(pthread_mutex_lock(&lock) == 0);
    CHECK(pthread_cond_timedwait(&changed, &lock, &late) == ETIMEDOUT);
    CHECK(pthread_cond_timedwait(&changed, &lock, &wrong) == EINVAL);
    CHECK(pthread_mutex_unlock(&lock) == 0 && pthread_cond_destroy(&changed) == 0);
    CHECK(sem_init(&count, 0, 1) == 0 && sem_wait(&count) == 0);
    CHECK(sem_trywait(&count) == -1 && errno == EAGAIN);
    CHECK(sem_timedwait(&count, &late) == -1 && errno == ETIMEDOUT && sem_post(&count) == 0);
    CHECK(sem_wait(&count) == 0 && pthread_barrier_init(&barrier, NULL, 1) == 0);
    CHECK(pthread_barrier_wait(&barrier) == PTHREAD_BARRIER_SERIAL_THREAD);
}

static void libraries(void)
{
    Dl_info info;
    CHECK(dlerror() == NULL && dlopen("libm.so.6", RTLD_NOW) == NULL);
    CHECK(strcmp(dlerror(), "Dynamic loading not supported") == 0 && dlerror() == NULL);
    CHECK(dlsym(NULL, "main") == NULL && strcmp(dlerror(), "Symbol not found: main") == 0);
    CHECK(dlclose(&info) != 0 && strncmp(dlerror(), "Invalid library handle", 22) == 0);
    CHECK(dladdr((void *)libraries, &info) == 0);
}

/* The exit status is this one's, after what pthread_exit runs. */
static void at_exit(void)
{
    if (cleaned != 12 || dropped != 5)
        _Exit(99);
}

int main(void)
{
    static int two = 2, five = 5, ten = 10;
    pthread_key_t key, other;
    threads();
    locks();
    waits();
    libraries();
    atexit(at_exit);
    CHECK(pthread_key_create(&key, drop) == 0 && pthread_key_create(&other, NULL) == 0);
    CHECK(pthread_getspecific(key) == NULL && pthread_setspecific(key, &five) == 0);
    CHECK(pthread_getspecific(key) == &five && pthread_setspecific(other, &two) == 0);
    pthread_cleanup_push(clean, &two);
    pthread_cleanup_push(clean, &ten);
    pthread_cleanup_push(clean, &five);
    pthread_cleanup_pop(0);
    pthread_exit(NULL);
    pthread_cleanup_pop(1);
    pthread_cleanup_pop(1);
    return 98;
}
