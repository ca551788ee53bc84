// fails.c: lets the n-th call of a kind fail; check_failing.sh uses it.
#define _GNU_SOURCE
#include <dlfcn.h>
#include <errno.h>
#include <fcntl.h>
#include <stdlib.h>
#include <string.h>
#include <sys/types.h>
#include <unistd.h>

enum { ALLOC, OPEN, READ, WRITE };
static const char *const names[] = { "alloc", "open", "read", "write" };
static long calls[4];

static int fails(int kind) {
    const char *of = getenv("FAILS"), *at = getenv("AT");
    if (!of || !at || strcmp(of, names[kind]) || ++calls[kind] != atol(at)) return 0;
    if (write(3, "!", 1) < 0) {}
    return 1;
}

static int how(const char *word) {
    const char *how = getenv("HOW");
    return how && !strcmp(how, word);
}

#define REAL(name) ((__typeof__(&name))dlsym(RTLD_NEXT, #name))

void *malloc(size_t n) { return fails(ALLOC) ? (errno = ENOMEM, NULL) : REAL(malloc)(n); }
void *realloc(void *p, size_t n) { return fails(ALLOC) ? (errno = ENOMEM, NULL) : REAL(realloc)(p, n); }
void *aligned_alloc(size_t a, size_t n) { return fails(ALLOC) ? NULL : REAL(aligned_alloc)(a, n); }

int open(const char *name, int flags, ...) {
    if (fails(OPEN)) return errno = EACCES, -1;
    return REAL(open)(name, flags, 0);
}

ssize_t read(int file, void *to, size_t n) {
    if (!fails(READ)) return REAL(read)(file, to, n);
    if (how("short") && n) return REAL(read)(file, to, 1);
    return errno = how("interrupted") ? EINTR : EIO, -1;
}

ssize_t write(int file, const void *from, size_t n) {
    if (file == 3 || !fails(WRITE)) return REAL(write)(file, from, n);
    if (how("short") && n) return REAL(write)(file, from, 1);
    if (how("nothing")) return 0;
    return errno = how("interrupted") ? EINTR : ENOSPC, -1;
}
