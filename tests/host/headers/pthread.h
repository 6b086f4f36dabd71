#pragma once
#include <stddef.h>
typedef unsigned long pthread_t;
typedef union {
    char size[56];
    long aligned;
} pthread_attr_t;
typedef union {
    char size[32];
    long aligned;
} pthread_barrier_t;
int pthread_attr_init(pthread_attr_t *attributes);
int pthread_attr_setstack(pthread_attr_t *attributes, void *low, size_t size);
int pthread_create(pthread_t *thread, const pthread_attr_t *attributes, void *(*body)(void *), void *lent);
int pthread_join(pthread_t thread, void **answer);
int pthread_barrier_init(pthread_barrier_t *barrier, const void *attributes, unsigned count);
int pthread_barrier_wait(pthread_barrier_t *barrier);
