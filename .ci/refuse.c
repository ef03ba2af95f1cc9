/* .ci/refusals puts this in front of the C library. It refuses one allocation of a program: the one
 * whose number REFUSE_AT gives, counted from 1. It notes that in the file REFUSE_NOTE, as "growth",
 * or as "thread" if the allocation was for the start of a thread.
 *
 * A list that is refused the room for all that it expects retries at once with room for one more.
 * The retry counts as the same allocation, and is refused too. A retry comes from the same thread,
 * at the same depth of its stack, with no other allocation or free in between, and asks for no more
 * than was refused.
 *
 * With REFUSE_ONE_BY_ONE, whoever starts a thread stands still until that thread has ended: so all
 * runs ask for memory in one order. That is for programs whose threads never wait for the one that
 * started them. */
#define _GNU_SOURCE
#include <dlfcn.h>
#include <errno.h>
#include <fcntl.h>
#include <pthread.h>
#include <semaphore.h>
#include <stdlib.h>
#include <string.h>
#include <unistd.h>

extern void *__libc_malloc(size_t size);
extern void *__libc_calloc(size_t count, size_t size);
extern void *__libc_realloc(void *block, size_t size);
extern void *__libc_memalign(size_t align, size_t size);
extern void __libc_free(void *block);

static long refused_at;
static long grown;
static int is_one_by_one;
static __thread int starts_thread;
/* If this thread's last call was refused: the depth of its stack then, and what it asked for. */
static __thread const void *refused_depth;
static __thread size_t refused_size;

__attribute__((constructor)) static void read_words(void) {
    const char *number = getenv("REFUSE_AT");
    refused_at = number ? atol(number) : 0;
    is_one_by_one = getenv("REFUSE_ONE_BY_ONE") != NULL;
}

static void note(void) {
    const char *path = getenv("REFUSE_NOTE");
    const char *what = starts_thread ? "thread" : "growth";
    int file = path ? open(path, O_CREAT | O_WRONLY | O_TRUNC, 0600) : -1;
    if (file < 0 || write(file, what, strlen(what)) < 0 || close(file) < 0)
        _exit(70);
}

/* Whether a call for so much is refused, which was made with the stack at this depth. */
static int is_refused(size_t size, const void *depth) {
    int is_asked_again = depth == refused_depth && size <= refused_size;
    refused_depth = NULL;
    if (!is_asked_again) {
        if (refused_at == 0 || __atomic_add_fetch(&grown, 1, __ATOMIC_SEQ_CST) != refused_at)
            return 0;
        note();
    }
    refused_depth = depth;
    refused_size = size;
    errno = ENOMEM;
    return 1;
}

#define IS_REFUSED(size) is_refused(size, __builtin_frame_address(0))

void *malloc(size_t size) { return IS_REFUSED(size) ? NULL : __libc_malloc(size); }

/* (A product that is too large for a size is one that the C library refuses.) */
void *calloc(size_t count, size_t size) {
    return IS_REFUSED(count * size) ? NULL : __libc_calloc(count, size);
}

void *realloc(void *block, size_t size) {
    return IS_REFUSED(size) ? NULL : __libc_realloc(block, size);
}

void *memalign(size_t align, size_t size) {
    return IS_REFUSED(size) ? NULL : __libc_memalign(align, size);
}

void *aligned_alloc(size_t align, size_t size) {
    return IS_REFUSED(size) ? NULL : __libc_memalign(align, size);
}

int posix_memalign(void **block, size_t align, size_t size) {
    void *found = IS_REFUSED(size) ? NULL : __libc_memalign(align, size);
    if (found)
        *block = found;
    return found ? 0 : ENOMEM;
}

void free(void *block) {
    refused_depth = NULL;
    __libc_free(block);
}

struct run {
    void *(*body)(void *);
    void *argument;
    sem_t has_ended;
};

static void *run_and_tell(void *told) {
    struct run *run = told;
    void *answer = run->body(run->argument);
    sem_post(&run->has_ended);
    return answer;
}

int pthread_create(pthread_t *thread, const pthread_attr_t *attributes, void *(*body)(void *),
                   void *argument) {
    static int (*next)(pthread_t *, const pthread_attr_t *, void *(*)(void *), void *);
    struct run run = {.body = body, .argument = argument};
    if (!next)
        *(void **)&next = dlsym(RTLD_NEXT, "pthread_create");
    if (is_one_by_one) {
        sem_init(&run.has_ended, 0, 0);
        body = run_and_tell;
        argument = &run;
    }
    starts_thread = 1;
    int answer = next(thread, attributes, body, argument);
    starts_thread = 0;
    while (is_one_by_one && answer == 0 && sem_wait(&run.has_ended) != 0)
        ;
    return answer;
}
