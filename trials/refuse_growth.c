/* Refuses growths of memory, or threads, of a program. It is loaded before the C library, by LD_PRELOAD; try_memory.py and
   try_shortage.py build it. Each call of malloc or realloc is a growth. In the environment stand:

   REFUSE_GROWTH   the number of the one growth that is refused, counted from 1
   REFUSE_FROM     the number of the first one that is refused, with all later ones
   MOST_THREADS    how many threads are started; each later one is refused
   BETWEEN_MARKS   with any text: only growths between marks are counted and refused
   GROWTHS_FILE    the file that is told of the growths

   A test tells where a call begins and ends by a mark: it asks for MARK bytes and a number more. A number below END is that of a
   call that begins; END is the end of one that was answered, and the number behind it the end of one without memory. At each end a
   line goes to the file: the call's number, its growths, which of them was refused (or 0), and 1 where the call was answered by want
   of memory, else 0. Marks are for tests with one thread. Without them the program may have many; where it ends, the file then gets
   one line: the number of all growths, the place in the code that asked for the one that was refused last (or 0), and each place that
   asked for the last growth before a thread was started: a thread whose growth is refused there can't be started. */
#define _GNU_SOURCE
#include <dlfcn.h>
#include <errno.h>
#include <fcntl.h>
#include <pthread.h>
#include <stdatomic.h>
#include <stdio.h>
#include <stdlib.h>
#include <sys/syscall.h>
#include <unistd.h>

enum { MARK = 6000000, END = 128, LAST = END + 1, NONE = -1, PLACES = 64 };

typedef int create(pthread_t *, const pthread_attr_t *, void *(*)(void *), void *);

static atomic_long growths, threads; /* so many yet */
static long one = NONE, from = NONE, most = NONE;
static int has_marks;
static int event = NONE;     /* the call that has begun */
static long asked, refused;  /* its growths yet, and which of them was refused, or 0 */
static __thread long last;              /* the place of this thread's last growth */
static atomic_long refused_at;          /* the place of the growth that was refused last, or 0 */
static atomic_long starts[PLACES];      /* those before the start of a thread */

/* The number that a variable of the environment spells, or NONE. */
static long number(const char *name)
{
    const char *text = getenv(name);
    return text ? atol(text) : NONE;
}

__attribute__((constructor)) static void begin(void)
{
    one = number("REFUSE_GROWTH");
    from = number("REFUSE_FROM");
    most = number("MOST_THREADS");
    has_marks = getenv("BETWEEN_MARKS") != NULL;
}

/* What the C library has under a name. */
static void *next(const char *name)
{
    void *found = dlsym(RTLD_NEXT, name);
    if (!found)
        abort();
    return found;
}

/* Appends to the file. */
static void tell(const char *line, int length)
{
    const char *name = getenv("GROWTHS_FILE");
    int file = name ? open(name, O_WRONLY | O_CREAT | O_APPEND, 0666) : NONE;
    if (file == NONE || write(file, line, (size_t)length) != length)
        abort();
    close(file);
}

/* Takes a size that is a mark. */
static void take_mark(int mark)
{
    char line[100];
    if (mark < END) {
        event = mark;
        asked = refused = 0;
        return;
    }
    tell(line, snprintf(line, sizeof line, "%d %ld %ld %d\n", event, asked, refused, mark - END));
    event = NONE;
}

/* A place of the program's code, counted from its beginning, so that it is the same in each run. */
static long place_of(void *code)
{
    Dl_info info;
    return dladdr(code, &info) ? (long)((char *)code - (char *)info.dli_fbase) : 1;
}

/* A thread is started: notes the place of the last growth before, once. */
static void note_start(void)
{
    for (int at = 0; at < PLACES; at++) {
        long known = 0;
        if (atomic_compare_exchange_strong(&starts[at], &known, last) || known == last)
            return;
    }
    abort();
}

/* Whether this growth, which the code at a place asks for, is refused. */
static int is_refused(void *code)
{
    long count;
    if (has_marks && event == NONE)
        return 0;
    count = atomic_fetch_add(&growths, 1) + 1;
    if (has_marks)
        asked++;
    else
        last = place_of(code);
    if (count != one && (from < 0 || count < from))
        return 0;
    if (has_marks)
        refused = asked;
    refused_at = last;
    errno = ENOMEM;
    return 1;
}

void *malloc(size_t size)
{
    static _Atomic(void *(*)(size_t)) next_malloc;
    if (!next_malloc)
        next_malloc = (void *(*)(size_t))next("malloc");
    if (has_marks && MARK <= size && size <= MARK + LAST)
        take_mark((int)(size - MARK));
    else if (is_refused(__builtin_return_address(0)))
        return NULL;
    return next_malloc(size);
}

void *realloc(void *old, size_t size)
{
    static _Atomic(void *(*)(void *, size_t)) next_realloc;
    if (!next_realloc)
        next_realloc = (void *(*)(void *, size_t))next("realloc");
    return is_refused(__builtin_return_address(0)) ? NULL : next_realloc(old, size);
}

int pthread_create(pthread_t *thread, const pthread_attr_t *how, void *(*run)(void *), void *given)
{
    static _Atomic(create *) next_create;
    if (!next_create)
        next_create = (create *)next("pthread_create");
    note_start();
    if (most >= 0 && atomic_fetch_add(&threads, 1) >= most)
        return EAGAIN;
    return next_create(thread, how, run, given);
}

/* The program ends here, and runs no destructor. */
void _exit(int status)
{
    char line[20 * (PLACES + 2)];
    int length = snprintf(line, sizeof line, "%ld %ld", atomic_load(&growths), atomic_load(&refused_at));
    for (int at = 0; at < PLACES && starts[at]; at++)
        length += snprintf(line + length, sizeof line - (size_t)length, " %ld", starts[at]);
    line[length++] = '\n';
    if (!has_marks && getenv("GROWTHS_FILE"))
        tell(line, length);
    syscall(SYS_exit_group, status);
    __builtin_unreachable();
}
