/* The lock of the allocators that have one: a pthread mutex, or with -DSPIN a spin lock that yields after 64 tries. With
 * -DALONE there is one thread, and no lock. */
#ifndef LOCK_H
#define LOCK_H

#include <pthread.h>
#include <sched.h>
#include <stdatomic.h>

#if defined(ALONE)

static void lock(void) {}

static void unlock(void) {}

#elif defined(SPIN)

static struct {
    _Alignas(64) atomic_int taken;
    char rest_of_the_line[60];
} the_lock;

static void lock(void) {
    for (unsigned tries = 1;; tries++) {
        if (!atomic_load_explicit(&the_lock.taken, memory_order_relaxed)
            && !atomic_exchange_explicit(&the_lock.taken, 1, memory_order_acquire)) {
            return;
        }
        if (tries % 64 == 0) {
            sched_yield();
        } else {
            __builtin_ia32_pause();
        }
    }
}

static void unlock(void) {
    atomic_store_explicit(&the_lock.taken, 0, memory_order_release);
}

#else

static pthread_mutex_t the_lock = PTHREAD_MUTEX_INITIALIZER;

static void lock(void) {
    pthread_mutex_lock(&the_lock);
}

static void unlock(void) {
    pthread_mutex_unlock(&the_lock);
}

#endif
#endif
