// Refuses every thread that a program asks for, as a system does that has none left.
#include <errno.h>
#include <pthread.h>

int pthread_create(pthread_t *made, const pthread_attr_t *attributes, void *(*start)(void *), void *argument)
{
    (void)made, (void)attributes, (void)start, (void)argument;
    return EAGAIN;
}
