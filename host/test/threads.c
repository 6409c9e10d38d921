/* threads.c: threads on a block of this program's own, which is looked at or ended by a page that cannot be written. */
#define _XOPEN_SOURCE 700

#include "threads.h"

#include <pthread.h>
#include <stdint.h>
#include <stdlib.h>
#include <sys/mman.h>
#include <unistd.h>

#include "checks.h"

/* The block holds the stack, and above it what the system keeps for a thread. Stacks begin at multiples of ALIGNED. */
enum { BLOCK = 1 << 20, ALIGNED = 64 };

static const uint64_t paint = UINT64_C(0x6b2f9d41c3e85a17);

struct thread {
    work *work;
    void *argument;
    char *first; /* where the stack of the work begins */
};

static void *enter(void *argument)
{
    struct thread *t = argument;
    char here;
    t->first = &here;
    t->work(t->argument);
    return NULL;
}

static void run_thread(struct thread *t, char *low, size_t size)
{
    pthread_attr_t attributes;
    pthread_t thread;
    if (pthread_attr_init(&attributes) != 0 || pthread_attr_setstack(&attributes, low, size) != 0 ||
        pthread_create(&thread, &attributes, enter, t) != 0)
        give_up("no thread");
    pthread_join(thread, NULL);
    pthread_attr_destroy(&attributes);
}

static char *new_block(void)
{
    void *block;
    if (posix_memalign(&block, (size_t)sysconf(_SC_PAGESIZE), BLOCK) != 0)
        give_up("no memory");
    return block;
}

size_t stack_taken(work *work, void *argument)
{
    struct thread t = {work, argument, NULL};
    char *block = new_block();
    uint64_t *words = (uint64_t *)(void *)block;
    size_t low = 0;
    for (size_t i = 0; i < BLOCK / sizeof paint; i++)
        words[i] = paint;
    run_thread(&t, block, BLOCK);
    while (words[low] == paint)
        low++;
    size_t taken = (size_t)(t.first - block) - low * sizeof paint;
    free(block);
    return taken;
}

static void nothing(void *argument)
{
    (void)argument;
}

/* The bytes between a thread's work and the upper end of its block. */
static size_t kept_above(char *block)
{
    struct thread t = {nothing, NULL, NULL};
    run_thread(&t, block, BLOCK);
    return (size_t)(block + BLOCK - t.first);
}

void on_stack_of(size_t asked, work *work, void *argument)
{
    struct thread t = {work, argument, NULL};
    char *block = new_block();
    size_t page = (size_t)sysconf(_SC_PAGESIZE), above = kept_above(block);
    size_t barred = (BLOCK - above - asked - ALIGNED) / page * page;
    size_t size = (barred + asked + above + ALIGNED - 1) / ALIGNED * ALIGNED;
    if (mprotect(block, barred, PROT_NONE) != 0)
        give_up("no barred page");
    run_thread(&t, block, size);
    size_t given = (size_t)(t.first - block) - barred;
    CHECK(asked <= given && given < asked + ALIGNED);
    mprotect(block, barred, PROT_READ | PROT_WRITE);
    free(block);
}
