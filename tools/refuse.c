/* Preloaded into a program, refuses its allocation of the number ALLOCATION or its thread of the
   number THREAD, counted from 1, and then says so by a byte to the descriptor TOLD, if that is set.
   Where BETWEEN is set, only what lies between the lines `begin` and `end` of its standard error is
   counted. Standard input fails behind READ bytes, standard output behind ROOM bytes, and no read or
   write moves more than MOST bytes. */
#define _GNU_SOURCE
#include <dlfcn.h>
#include <errno.h>
#include <pthread.h>
#include <stdatomic.h>
#include <stdbool.h>
#include <stddef.h>
#include <stdlib.h>
#include <string.h>
#include <unistd.h>

void *__libc_malloc(size_t size);
void *__libc_realloc(void *old, size_t size);
ssize_t __read(int file, void *bytes, size_t size);
ssize_t __write(int file, const void *bytes, size_t size);

static atomic_long allocations, threads, taken, written;
static atomic_bool counting;

__attribute__((constructor)) static void begin(void)
{
    atomic_store(&counting, getenv("BETWEEN") == NULL);
}

static bool told(void)
{
    const char *file = getenv("TOLD");
    return file == NULL || __write(atoi(file), ".", 1) == 1;
}

static bool refused(atomic_long *count, const char *name)
{
    const char *number = getenv(name);
    return number != NULL && atomic_load(&counting) && atomic_fetch_add(count, 1) + 1 == atol(number)
        && told();
}

void *malloc(size_t size)
{
    return refused(&allocations, "ALLOCATION") ? NULL : __libc_malloc(size);
}

void *realloc(void *old, size_t size)
{
    return refused(&allocations, "ALLOCATION") ? NULL : __libc_realloc(old, size);
}

int pthread_create(pthread_t *thread, const pthread_attr_t *how, void *(*start)(void *), void *given)
{
    int (*create)(pthread_t *, const pthread_attr_t *, void *(*)(void *), void *) =
        dlsym(RTLD_NEXT, "pthread_create");
    return refused(&threads, "THREAD") ? EAGAIN : create(thread, how, start, given);
}

static bool is_line(int file, const void *bytes, size_t size, const char *line)
{
    return file == 2 && size == strlen(line) && memcmp(bytes, line, size) == 0;
}

static size_t lesser(size_t size, const char *name, long used)
{
    const char *number = getenv(name);
    long left = number == NULL ? 0 : atol(number) - used;
    return number == NULL || left > (long)size ? size : left > 0 ? (size_t)left : 0;
}

/* How many of these bytes may be moved, of which READ or ROOM counts those of one descriptor. */
static size_t allowed(size_t size, const char *name, atomic_long *moved)
{
    size = lesser(size, "MOST", 0);
    return name == NULL ? size : lesser(size, name, atomic_load(moved));
}

static ssize_t counted(ssize_t count, atomic_long *moved)
{
    if (count > 0) {
        atomic_fetch_add(moved, count);
    }
    return count;
}

ssize_t read(int file, void *bytes, size_t size)
{
    size_t most = allowed(size, file == 0 ? "READ" : NULL, &taken);
    if (size > 0 && most == 0) {
        errno = EIO;
        return -1;
    }
    ssize_t count = __read(file, bytes, most);
    return file == 0 ? counted(count, &taken) : count;
}

ssize_t write(int file, const void *bytes, size_t size)
{
    if (is_line(file, bytes, size, "begin\n")) {
        atomic_store(&counting, true);
    } else if (is_line(file, bytes, size, "end\n")) {
        atomic_store(&counting, false);
    }
    size_t most = allowed(size, file == 1 ? "ROOM" : NULL, &written);
    if (size > 0 && most == 0) {
        errno = ENOSPC;
        return -1;
    }
    ssize_t count = __write(file, bytes, most);
    return file == 1 ? counted(count, &written) : count;
}
