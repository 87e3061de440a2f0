// For LD_PRELOAD, with variables of the environment. REFUSED is a number n: the nth request for memory fails, and
// the file `refused` appears in the current folder. WATCHED: each fsync or rename writes `sync ` or `rename ` to
// standard error. NO_SYNC: each fsync fails. COUNTED: each thread that is started writes `thread ` to standard
// error. UNSTARTED is a number n: the nth thread can't be started.
#define _GNU_SOURCE
#include <dlfcn.h>
#include <errno.h>
#include <fcntl.h>
#include <pthread.h>
#include <stdatomic.h>
#include <stdio.h>
#include <stdlib.h>
#include <unistd.h>

#define NEXT(call) ((__typeof__(&call))dlsym(RTLD_NEXT, #call))

static int refused(void) {
    static atomic_long count;
    const char *number = getenv("REFUSED");
    if (!number || atomic_fetch_add(&count, 1) + 1 != atol(number)) return 0;
    close(open("refused", O_CREAT | O_WRONLY, 0600));
    errno = ENOMEM;
    return 1;
}

void *malloc(size_t size) { return refused() ? NULL : NEXT(malloc)(size); }
void *realloc(void *old, size_t size) { return refused() ? NULL : NEXT(realloc)(old, size); }

int fsync(int file) {
    if (getenv("WATCHED")) dprintf(STDERR_FILENO, "sync ");
    errno = EIO;
    return getenv("NO_SYNC") ? -1 : NEXT(fsync)(file);
}

int rename(const char *from, const char *to) {
    if (getenv("WATCHED")) dprintf(STDERR_FILENO, "rename ");
    return NEXT(rename)(from, to);
}

int pthread_create(pthread_t *made, const pthread_attr_t *how, void *(*call)(void *), void *with) {
    static atomic_long count;
    const char *number = getenv("UNSTARTED");
    if (number && atomic_fetch_add(&count, 1) + 1 == atol(number)) return EAGAIN;
    int status = NEXT(pthread_create)(made, how, call, with);
    if (!status && getenv("COUNTED")) dprintf(STDERR_FILENO, "thread ");
    return status;
}
