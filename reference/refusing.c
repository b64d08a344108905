// Loaded into a program, this refuses it memory: of the requests that it makes while it answers a part of its input, one alone
// or all from one on. Which these are is said, and what came of it told, on a page that is shared with whoever runs it.
//
// The part is told by the bytes of standard input. These come line by line: first a line without its line feed, and then
// that alone. So no request is made behind a line feed that is for the room of a line.
//
// The program may be told to wait where it has read so many bytes. It goes on from there in as many copies as it is asked for,
// each with an input and outputs of its own, so what stands before need not be answered again for each of them.
#define _GNU_SOURCE
#include <dlfcn.h>
#include <errno.h>
#include <fcntl.h>
#include <pthread.h>
#include <stdatomic.h>
#include <stdlib.h>
#include <string.h>
#include <sys/mman.h>
#include <sys/socket.h>
#include <sys/syscall.h>
#include <sys/wait.h>
#include <unistd.h>

struct page {
    // The bytes of standard input that the part is of: from the one, up to the other.
    long from, to;
    // The request that is refused, counted from 1, and with it all behind it, if so many; 0 for none.
    long first, is_on;
    // How many were made; how many were refused; how many of these while a line was read of which the end was not there yet.
    atomic_long made, refused, refused_in_line;
};

static struct page *page;
static atomic_int is_watched, is_in_line;
// Where the program is asked to go on, if it waits; and how many bytes it has read then.
static int asker = -1;
static long waits_at;

__attribute__((constructor)) static void begin(void) {
    const char *path = getenv("REFUSING"), *fd = getenv("REFUSING_ASKER");
    asker = fd ? atoi(fd) : -1;
    int file = path ? open(path, O_RDWR | O_CLOEXEC) : -1;
    if (file < 0)
        return;
    void *found = mmap(NULL, sizeof *page, PROT_READ | PROT_WRITE, MAP_SHARED, file, 0);
    close(file);
    page = found == MAP_FAILED ? NULL : found;
}

static int is_refused(void) {
    if (!is_watched)
        return 0;
    long number = atomic_fetch_add(&page->made, 1) + 1;
    if (!page->first || (page->is_on ? number < page->first : number != page->first))
        return 0;
    atomic_fetch_add(&page->refused, 1);
    if (is_in_line)
        atomic_fetch_add(&page->refused_in_line, 1);
    return 1;
}

// What asks for memory, each in place of the function of this name.

extern void *__libc_malloc(size_t size), *__libc_calloc(size_t count, size_t size), *__libc_realloc(void *old, size_t size);
extern void *__libc_memalign(size_t place, size_t size);

static void *none(void) {
    errno = ENOMEM;
    return NULL;
}

void *malloc(size_t size) { return is_refused() ? none() : __libc_malloc(size); }

void *calloc(size_t count, size_t size) { return is_refused() ? none() : __libc_calloc(count, size); }

void *realloc(void *old, size_t size) { return is_refused() ? none() : __libc_realloc(old, size); }

void *memalign(size_t place, size_t size) { return is_refused() ? none() : __libc_memalign(place, size); }

void *aligned_alloc(size_t place, size_t size) { return memalign(place, size); }

int posix_memalign(void **made, size_t place, size_t size) {
    void *found = memalign(place, size);
    if (!found)
        return ENOMEM;
    *made = found;
    return 0;
}

// The stack of a thread is memory too. Of a program that waits the first thread is the one that it has, since a copy has no other.
static void *made_in_place;
static const pthread_t in_place;

int pthread_create(pthread_t *made, const pthread_attr_t *with, void *(*does)(void *), void *on) {
    int (*create)(pthread_t *, const pthread_attr_t *, void *(*)(void *), void *) = dlsym(RTLD_NEXT, "pthread_create");
    static int is_first = 1;
    if (asker >= 0 && is_first) {
        is_first = 0;
        *made = in_place;
        made_in_place = does(on);
        return 0;
    }
    return is_refused() ? EAGAIN : create(made, with, does, on);
}

int pthread_join(pthread_t thread, void **made) {
    int (*join)(pthread_t, void **) = dlsym(RTLD_NEXT, "pthread_join");
    if (thread != in_place)
        return join(thread, made);
    if (made)
        *made = made_in_place;
    return 0;
}

// Standard input, line by line. Where more is wanted, what the program did with what it had is done.

static char held[1 << 16];
static long start, end, given;

// Takes a file in the place of a stream.
static void put(const char *path, int flags, int stream) {
    int file = open(path, flags);
    if (file < 0 || dup2(file, stream) < 0)
        _exit(99);
    close(file);
}

// Waits, and goes on where that is asked: to so many bytes of this input, or, in a copy, with the input of its own from its
// beginning. The paths stand in the environment.
static void wait_for_asker(void) {
    long until;
    int status = 0;
    // That it waits here is told by a status too.
    while (send(asker, &status, sizeof status, 0) == sizeof status && recv(asker, &until, sizeof until, 0) == sizeof until) {
        if (until >= 0) {
            waits_at = until;
            return;
        }
        int copy = fork();
        if (!copy) {
            close(asker);
            put(getenv("REFUSING_INPUT"), O_RDONLY, 0);
            put(getenv("REFUSING_OUTPUT"), O_WRONLY, 1);
            put(getenv("REFUSING_ERRORS"), O_WRONLY, 2);
            start = end = given = 0;
            asker = waits_at = -1;
            return;
        }
        waitpid(copy, &status, 0);
    }
    _exit(0);
}

static ssize_t give(void *into, size_t most) {
    char *feed = memchr(held + start, '\n', end - start);
    size_t size = feed == held + start ? 1 : (feed ? feed - held : end) - start;
    size = size < most ? size : most;
    memcpy(into, held + start, size);
    is_in_line = held[start] != '\n';
    start += size;
    given += size;
    return size;
}

ssize_t read(int file, void *into, size_t most) {
    if (file || !page)
        return syscall(SYS_read, file, into, most);
    is_watched = 0;
    if (given == waits_at && asker >= 0)
        wait_for_asker();
    if (start == end) {
        long count = syscall(SYS_read, 0, held, sizeof held);
        if (count <= 0)
            return count;
        start = 0;
        end = count;
    }
    int is_part = page->from <= given && given < page->to;
    ssize_t count = give(into, most);
    is_watched = is_part;
    return count;
}
