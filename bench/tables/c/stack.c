/* How much stack a call needs: it runs in a thread whose stack was painted, and the paint that is left is counted. */
#include <pthread.h>
#include <stddef.h>
#include <stdlib.h>
#include <string.h>

#define SIZE (1 << 20)

/* The bytes of stack that `call(argument)` touches, those of the thread's own start included; 0 where no thread could be made. */
size_t stack_touched(void *(*call)(void *), void *argument)
{
    unsigned char *stack = aligned_alloc(4096, SIZE);
    pthread_attr_t attributes;
    pthread_t thread;
    size_t left = 0;
    if (!stack)
        return 0;
    memset(stack, 0xa5, SIZE);
    pthread_attr_init(&attributes);
    if (pthread_attr_setstack(&attributes, stack, SIZE) || pthread_create(&thread, &attributes, call, argument)) {
        free(stack);
        return 0;
    }
    pthread_join(thread, NULL);
    while (left < SIZE && stack[left] == 0xa5)
        left++;
    pthread_attr_destroy(&attributes);
    free(stack);
    return SIZE - left;
}
