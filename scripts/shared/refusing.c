/* Makes one call of a program fail, as a full disk, a broken pipe or a machine without memory would. It is loaded in front of
   the C library:

   cc -O2 -shared -fPIC -o refusing.so refusing.c && REFUSE=memory:7 LD_PRELOAD=./refusing.so PROGRAM WORDS..

   REFUSE is a kind of call, a colon, and the number of the call that fails, from 0. With a + after it, all later calls of the
   kind fail too. The kinds are

     memory   malloc, calloc, realloc, posix_memalign and aligned_alloc, also where the C library calls them
     thread   pthread_create
     input    reads of descriptor 0
     output   writes to descriptor 1
     report   writes to descriptor 2
     ports    socket, bind, listen, accept4, epoll_wait, recv and send

   TALLY names a file. Where the program ends by itself, that file tells how many calls of the kind there were, and how many
   octets were read of descriptor 0. */
#define _GNU_SOURCE
#include <dlfcn.h>
#include <errno.h>
#include <fcntl.h>
#include <pthread.h>
#include <stdatomic.h>
#include <stdio.h>
#include <stdlib.h>
#include <string.h>
#include <sys/epoll.h>
#include <sys/socket.h>
#include <sys/syscall.h>
#include <unistd.h>

enum kind { NONE, MEMORY, THREAD, INPUT, OUTPUT, REPORT, PORTS, KINDS };

static const char *const names[KINDS] = { "", "memory", "thread", "input", "output", "report", "ports" };
static enum kind refused_kind;
static long refused_call;
static int later_too;
static atomic_long calls, octets_read;

/* The C library's own functions. Those of memory have names of their own there, since dlsym needs memory itself. */
static __typeof__(read) *real_read;
static __typeof__(write) *real_write;
static __typeof__(pthread_create) *real_pthread_create;
static __typeof__(socket) *real_socket;
static __typeof__(bind) *real_bind;
static __typeof__(listen) *real_listen;
static __typeof__(accept4) *real_accept4;
static __typeof__(epoll_wait) *real_epoll_wait;
static __typeof__(recv) *real_recv;
static __typeof__(send) *real_send;
extern void *__libc_malloc(size_t), *__libc_calloc(size_t, size_t), *__libc_realloc(void *, size_t);
extern void *__libc_memalign(size_t, size_t);

/* Counts a call of this kind. Whether it fails. */
static int fails(enum kind kind)
{
    if (kind != refused_kind)
        return 0;
    long call = atomic_fetch_add(&calls, 1);
    return later_too ? call >= refused_call : call == refused_call;
}

/* The kind of a call that reads or writes a descriptor. */
static enum kind kind_of(int file)
{
    return file == 0 ? INPUT : file == 1 ? OUTPUT : file == 2 ? REPORT : KINDS;
}

__attribute__((constructor)) static void begins(void)
{
    real_read = dlsym(RTLD_NEXT, "read");
    real_write = dlsym(RTLD_NEXT, "write");
    real_pthread_create = dlsym(RTLD_NEXT, "pthread_create");
    real_socket = dlsym(RTLD_NEXT, "socket");
    real_bind = dlsym(RTLD_NEXT, "bind");
    real_listen = dlsym(RTLD_NEXT, "listen");
    real_accept4 = dlsym(RTLD_NEXT, "accept4");
    real_epoll_wait = dlsym(RTLD_NEXT, "epoll_wait");
    real_recv = dlsym(RTLD_NEXT, "recv");
    real_send = dlsym(RTLD_NEXT, "send");
    const char *wanted = getenv("REFUSE"), *colon = wanted ? strchr(wanted, ':') : NULL;
    if (!colon)
        return;
    char *end;
    refused_call = strtol(colon + 1, &end, 10);
    later_too = *end == '+';
    for (enum kind kind = MEMORY; kind < KINDS; kind++)
        if (strlen(names[kind]) == (size_t)(colon - wanted) && !strncmp(names[kind], wanted, colon - wanted))
            refused_kind = kind;
}

__attribute__((destructor)) static void ends(void)
{
    refused_kind = NONE;
    const char *path = getenv("TALLY");
    FILE *file = path ? fopen(path, "w") : NULL;
    if (!file)
        return;
    fprintf(file, "%ld %ld\n", atomic_load(&calls), atomic_load(&octets_read));
    fclose(file);
}

/* The program ends by it, past all destructors. */
void _exit(int status)
{
    ends();
    syscall(SYS_exit_group, status);
    __builtin_unreachable();
}

void *malloc(size_t size)
{
    if (fails(MEMORY))
        return errno = ENOMEM, NULL;
    return __libc_malloc(size);
}

void *calloc(size_t count, size_t size)
{
    if (fails(MEMORY))
        return errno = ENOMEM, NULL;
    return __libc_calloc(count, size);
}

void *realloc(void *it, size_t size)
{
    if (fails(MEMORY))
        return errno = ENOMEM, NULL;
    return __libc_realloc(it, size);
}

void *aligned_alloc(size_t align, size_t size)
{
    if (fails(MEMORY))
        return errno = ENOMEM, NULL;
    return __libc_memalign(align, size);
}

int posix_memalign(void **it, size_t align, size_t size)
{
    if (fails(MEMORY))
        return ENOMEM;
    *it = __libc_memalign(align, size);
    return *it ? 0 : ENOMEM;
}

int pthread_create(pthread_t *it, const pthread_attr_t *how, void *(*run)(void *), void *with)
{
    if (fails(THREAD))
        return EAGAIN;
    return real_pthread_create(it, how, run, with);
}

ssize_t read(int file, void *octets, size_t count)
{
    if (fails(kind_of(file)))
        return errno = EIO, -1;
    ssize_t got = real_read(file, octets, count);
    if (file == 0 && got > 0)
        atomic_fetch_add(&octets_read, got);
    return got;
}

ssize_t write(int file, const void *octets, size_t count)
{
    if (fails(kind_of(file)))
        return errno = ENOSPC, -1;
    return real_write(file, octets, count);
}

int socket(int domain, int type, int protocol)
{
    if (fails(PORTS))
        return errno = EMFILE, -1;
    return real_socket(domain, type, protocol);
}

int bind(int file, const struct sockaddr *to, socklen_t length)
{
    if (fails(PORTS))
        return errno = EADDRINUSE, -1;
    return real_bind(file, to, length);
}

int listen(int file, int most)
{
    if (fails(PORTS))
        return errno = EADDRINUSE, -1;
    return real_listen(file, most);
}

int accept4(int file, struct sockaddr *from, socklen_t *length, int how)
{
    if (fails(PORTS))
        return errno = EMFILE, -1;
    return real_accept4(file, from, length, how);
}

int epoll_wait(int file, struct epoll_event *events, int most, int milliseconds)
{
    if (fails(PORTS))
        return errno = EINTR, -1;
    return real_epoll_wait(file, events, most, milliseconds);
}

ssize_t recv(int file, void *octets, size_t count, int how)
{
    if (fails(PORTS))
        return errno = ECONNRESET, -1;
    return real_recv(file, octets, count, how);
}

ssize_t send(int file, const void *octets, size_t count, int how)
{
    if (fails(PORTS))
        return errno = ECONNRESET, -1;
    return real_send(file, octets, count, how);
}
