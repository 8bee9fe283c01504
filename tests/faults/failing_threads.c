/* A library to preload: the Nth thread that the program starts can't be started, N being the value of FAILING_THREAD. */
#define _GNU_SOURCE
#include <dlfcn.h>
#include <errno.h>
#include <pthread.h>
#include <stdlib.h>

int pthread_create(pthread_t *thread, const pthread_attr_t *attributes, void *(*begin)(void *), void *argument) {
    static long count;
    int (*real)(pthread_t *, const pthread_attr_t *, void *(*)(void *), void *) =
        (int (*)(pthread_t *, const pthread_attr_t *, void *(*)(void *), void *))dlsym(RTLD_NEXT, "pthread_create");
    const char *wanted = getenv("FAILING_THREAD");
    count += 1;
    if (wanted && count == atol(wanted)) return EAGAIN;
    return real(thread, attributes, begin, argument);
}
