/* Preloaded into a program, this library refuses one of its asks for memory, or the start of one of its threads, and counts
   them. It can also make `accept4` fail. It is told what to do by the environment:

     REFUSE_MEMORY=N    the Nth ask for memory that counts gets none; 0, or nothing, refuses none
     REFUSE_THREAD=N    the Nth thread is not started
     REFUSE_ON=1        all from the Nth on are refused as well
     REFUSE_AFTER=TEXT  nothing counts before the program wrote something that begins with TEXT to its standard output
     REFUSE_WITHIN=A-B,A-B..  an ask for memory counts only while one of these calls runs in its thread: the addresses, in
                        hexadecimal, from A up to B of the program's file, as `nm` has them. A call that was inlined has none
     REFUSE_CALL=NAME   an ask for memory, or for a thread, counts only in a thread that wrote `begin NAME` to its standard error, until it
                        writes `end NAME` there: craq_node_tests does. Such marks, of any name, are not passed on
     REFUSE_ACCEPT=N    the first N calls of `accept4` that count fail with the error number REFUSE_ERROR
     REFUSE_TOLD=FILE   a line `refused` is added to FILE at each refusal, and one with the counts where a call of REFUSE_CALL ends, and
                        where the program ends by `exit`, as craq_lab does and craqd does not. A line `smaller` follows `refused` where a
                        block was to become smaller: without memory for that the program may keep the block as it is

   It finds the calls that run by frame pointers, which programs that are built without proofs keep, while C libraries do not: so it
   sees only calls that are not above a frame of a C library. Built by tools/hostile/refused.py. */
#define _GNU_SOURCE
#include <dlfcn.h>
#include <errno.h>
#include <fcntl.h>
#include <link.h>
#include <malloc.h>
#include <pthread.h>
#include <stdatomic.h>
#include <stdint.h>
#include <stdio.h>
#include <stdlib.h>
#include <string.h>
#include <sys/socket.h>
#include <unistd.h>

enum { MOST_CALLS = 256, MOST_FRAMES = 4096, MOST_MARK = 128 };
/* A block has fewer bytes to spare than this. */
enum { SPARE = 40 };

extern void *__libc_malloc(size_t), *__libc_calloc(size_t, size_t), *__libc_realloc(void *, size_t), *__libc_memalign(size_t, size_t);
extern void *__libc_stack_end;

struct call { uintptr_t from, to; };

static struct call calls[MOST_CALLS];
static int calls_known, told = -1, refuses_on;
static long memory_at, thread_at, accepts_failing, accept_error;
static const char *after, *call;
static atomic_long memory_asked, threads_asked, accepts_asked;
static atomic_int counts;
static __thread uintptr_t stack_end;
static __thread int runs_call;

static long number_of(const char *name) {
    const char *text = getenv(name);
    return text ? atol(text) : 0;
}

/* The first image that is listed is the program. */
static int base_of_program(struct dl_phdr_info *image, size_t size, void *base) {
    (void)size;
    *(uintptr_t *)base = image->dlpi_addr;
    return 1;
}

static void learn_calls(const char *text) {
    uintptr_t base = 0;
    dl_iterate_phdr(base_of_program, &base);
    while (text && *text && calls_known < MOST_CALLS) {
        char *end;
        calls[calls_known].from = base + strtoul(text, &end, 16);
        calls[calls_known].to = base + strtoul(*end == '-' ? end + 1 : end, &end, 16);
        calls_known++;
        text = *end == ',' ? end + 1 : NULL;
    }
}

static void tell(const char *text) {
    if (told >= 0 && write(told, text, strlen(text)) < 0) abort();
}

__attribute__((constructor)) static void begin(void) {
    const char *file = getenv("REFUSE_TOLD");
    told = file ? open(file, O_WRONLY | O_APPEND | O_CREAT | O_CLOEXEC, 0600) : -1;
    memory_at = number_of("REFUSE_MEMORY");
    thread_at = number_of("REFUSE_THREAD");
    accepts_failing = number_of("REFUSE_ACCEPT");
    accept_error = number_of("REFUSE_ERROR");
    refuses_on = number_of("REFUSE_ON") != 0;
    after = getenv("REFUSE_AFTER");
    call = getenv("REFUSE_CALL");
    learn_calls(getenv("REFUSE_WITHIN"));
    counts = after == NULL;
}

/* Tells how many asks counted so far. */
__attribute__((destructor)) static void tell_counts(void) {
    char line[96];
    snprintf(line, sizeof line, "memory %ld threads %ld\n", memory_asked, threads_asked);
    tell(line);
}

/* Returns whether one of the named calls runs in this thread. Its frames are linked, each at a higher address than the one that it called. */
static int runs_within(void) {
    uintptr_t *frame = __builtin_frame_address(0);
    uintptr_t top = stack_end ? stack_end : (uintptr_t)__libc_stack_end;
    for (int seen = 0; seen < MOST_FRAMES; seen++) {
        for (int at = 0; at < calls_known; at++)
            if (calls[at].from <= frame[1] && frame[1] < calls[at].to) return 1;
        uintptr_t next = frame[0];
        if (next <= (uintptr_t)frame || next + 2 * sizeof(uintptr_t) > top || next % sizeof(uintptr_t)) return 0;
        frame = (uintptr_t *)next;
    }
    return 0;
}

static int refuses(atomic_long *asked, long at) {
    long now = atomic_fetch_add(asked, 1) + 1;
    if (at <= 0 || !(now == at || (refuses_on && now > at))) return 0;
    tell("refused\n");
    return 1;
}

/* Returns whether a request of this thread for memory or a thread counts now. */
static int is_counted(void) {
    return counts && (!call || runs_call);
}

static int has_none(void) {
    if (!is_counted() || (calls_known && !runs_within()) || !refuses(&memory_asked, memory_at)) return 0;
    errno = ENOMEM;
    return 1;
}

void *malloc(size_t size) { return has_none() ? NULL : __libc_malloc(size); }
void *calloc(size_t count, size_t size) { return has_none() ? NULL : __libc_calloc(count, size); }
void *memalign(size_t to, size_t size) { return has_none() ? NULL : __libc_memalign(to, size); }
void *aligned_alloc(size_t to, size_t size) { return has_none() ? NULL : __libc_memalign(to, size); }

void *realloc(void *old, size_t size) {
    if (!has_none()) return __libc_realloc(old, size);
    if (old && malloc_usable_size(old) >= size + SPARE) tell("smaller\n");
    return NULL;
}

int posix_memalign(void **made, size_t to, size_t size) {
    if (has_none()) return ENOMEM;
    void *found = __libc_memalign(to, size);
    if (!found) return ENOMEM;
    *made = found;
    return 0;
}

/* Zeros: so keys have one hash in each run, and each run asks for as much memory as the others. */
int getentropy(void *into, size_t size) {
    memset(into, 0, size);
    return 0;
}

struct start { void *(*run)(void *); void *given; };

/* Runs what the thread was made for. The frames above are not the program's. */
static void *begin_thread(void *it) {
    struct start start = *(struct start *)it;
    free(it);
    stack_end = (uintptr_t)__builtin_frame_address(0);
    return start.run(start.given);
}

int pthread_create(pthread_t *made, const pthread_attr_t *how, void *(*run)(void *), void *given) {
    static int (*real)(pthread_t *, const pthread_attr_t *, void *(*)(void *), void *);
    if (!real) real = (int (*)(pthread_t *, const pthread_attr_t *, void *(*)(void *), void *))dlsym(RTLD_NEXT, "pthread_create");
    if (is_counted() && refuses(&threads_asked, thread_at)) return EAGAIN;
    struct start *start = __libc_malloc(sizeof *start);
    if (!start) return EAGAIN;
    *start = (struct start){run, given};
    int status = real(made, how, begin_thread, start);
    if (status) free(start);
    return status;
}

int accept4(int file, struct sockaddr *from, socklen_t *size, int flags) {
    static int (*real)(int, struct sockaddr *, socklen_t *, int);
    if (!real) real = (int (*)(int, struct sockaddr *, socklen_t *, int))dlsym(RTLD_NEXT, "accept4");
    if (!is_counted() || atomic_fetch_add(&accepts_asked, 1) >= accepts_failing) return real(file, from, size, flags);
    tell("refused\n");
    errno = (int)accept_error;
    return -1;
}

/* Returns 0 if these bytes are no mark of this word, as `begin`; 2 for a mark of the call that counts, 1 for that of another. */
static int is_mark(const char *word, const char *bytes, size_t size) {
    char line[MOST_MARK];
    int length = snprintf(line, sizeof line, "%s %s\n", word, call);
    if (size == (size_t)length && !memcmp(bytes, line, size)) return 2;
    size_t front = strlen(word) + 1;
    return size > front && !memcmp(bytes, line, front);
}

ssize_t write(int file, const void *bytes, size_t size) {
    static ssize_t (*real)(int, const void *, size_t);
    if (!real) real = (ssize_t (*)(int, const void *, size_t))dlsym(RTLD_NEXT, "write");
    if (file == 2 && call) {
        int begins = is_mark("begin", bytes, size), ends = is_mark("end", bytes, size);
        if (begins == 2) runs_call = 1;
        if (ends == 2) {
            runs_call = 0;
            tell_counts();
        }
        if (begins || ends) return (ssize_t)size;
    }
    ssize_t wrote = real(file, bytes, size);
    if (file == 1 && after && wrote > 0 && size >= strlen(after) && !memcmp(bytes, after, strlen(after))) counts = 1;
    return wrote;
}
