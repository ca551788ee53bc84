/* calls.c: many calls of the library in one process, for check_library.sh and speed_library.py:
 *     ./calls THREADS CALLS [ends] [OPTION FILE].. -- WORD..
 * Each thread makes that many calls of these words. OPTION is `tasks`, `machine` or `list`, with a file's name. The first
 * call, with NULL and length 0 for both buffers, measures. Of each four calls one then has no room for the answer, one has
 * room for all but its last byte, and two have room for all of it and for the notes; what it leaves has to be the same
 * each time, and the bytes after it have to stay. With `ends` the calls are of rtdvs_end, with room for none, 1, 40, all
 * but one, all and more of the answer's bytes: what each leaves has to be the end of the whole answer. If that has more
 * than 32 MiB, a first call for 40 bytes takes no more memory than an eighth of it. All memory is as long as what it holds, so that a tool sees a read or a
 * write outside of it. The threads have the stack that the header asks for, above a page that nothing may touch, and no
 * call touches its last quarter. It prints the status and both lengths, and how many bytes of the stack were touched to
 * standard error. It ends with 1 if a call differs. */
#define _DEFAULT_SOURCE
#include "../library/rtdvs.h"

#include <pthread.h>
#include <stdio.h>
#include <stdlib.h>
#include <string.h>
#include <sys/mman.h>
#include <sys/resource.h>
#include <unistd.h>

struct bytes {
    uint8_t *at;
    size_t len;
};

static struct bytes words, file[3], out, notes;
static long count;
static uint8_t wanted;

static void fail(const char *why)
{
    fprintf(stderr, "calls: %s\n", why);
    exit(1);
}

static uint8_t *fresh(size_t len)
{
    uint8_t *at = len > 0 ? malloc(len) : NULL;
    if (len > 0 && at == NULL)
        fail("no memory");
    return at;
}

static struct bytes load(const char *name)
{
    struct bytes b = { NULL, 0 };
    FILE *f = fopen(name, "rb");
    if (f == NULL || fseek(f, 0, SEEK_END) != 0)
        fail(name);
    b.len = (size_t)ftell(f);
    b.at = fresh(b.len);
    rewind(f);
    if (b.len > 0 && fread(b.at, 1, b.len, f) != b.len)
        fail(name);
    fclose(f);
    return b;
}

static uint8_t call(struct bytes o, struct bytes n, struct rtdvs_lengths *lengths)
{
    return rtdvs_call(words.at, words.len, file[0].at, file[0].len, file[1].at, file[1].len, file[2].at, file[2].len,
                      o.at, o.len, n.at, n.len, lengths);
}

static uint8_t end(struct bytes o, struct bytes n, struct rtdvs_lengths *lengths)
{
    return rtdvs_end(words.at, words.len, file[0].at, file[0].len, file[1].at, file[1].len, file[2].at, file[2].len,
                     o.at, o.len, n.at, n.len, lengths);
}

/* One call with this much room, and with two bytes more after it, which have to stay. */
static void call_with(int of_end, size_t room, size_t notes_room)
{
    struct rtdvs_lengths lengths = { 7, 7 };
    struct bytes o = { fresh(room + 2), room }, n = { fresh(notes_room + 2), notes_room };
    size_t fits = out.len < room ? out.len : room, first = of_end ? out.len - fits : 0;
    memset(o.at, 0xA5, room + 2);
    memset(n.at, 0xA5, notes_room + 2);
    uint8_t status = of_end ? end(o, n, &lengths) : call(o, n, &lengths);
    if (status != (room < out.len && !of_end ? RTDVS_NO_ROOM : wanted))
        fail("another status");
    if (lengths.out != out.len || lengths.notes != notes.len)
        fail("other lengths");
    if (fits > 0 && memcmp(o.at, out.at + first, fits) != 0)
        fail("another answer");
    if (notes.len <= notes_room && notes.len > 0 && memcmp(n.at, notes.at, notes.len) != 0)
        fail("other notes");
    for (size_t i = fits; i < room + 2; i++)
        if (o.at[i] != 0xA5)
            fail("a byte after the answer");
    free(o.at);
    free(n.at);
}

static void *calls(void *unused)
{
    for (long i = 0; i < count; i++) {
        if (i % 4 == 1)
            call_with(0, 0, 0);
        else if (i % 4 == 2 && out.len > 0)
            call_with(0, out.len - 1, notes.len);
        else
            call_with(0, out.len, notes.len);
    }
    return unused;
}

static void *ends(void *unused)
{
    for (long i = 0; i < count; i++) {
        const size_t rooms[] = { 0, 1, 40, out.len - (out.len > 0), out.len, out.len + 9 };
        call_with(1, rooms[i % 6], notes.len);
    }
    return unused;
}

static void *(*work)(void *) = calls;

/* The KiB of memory by which this process grows while the end of an answer is asked for. */
static size_t growth(void)
{
    uint8_t last[40];
    struct rtdvs_lengths lengths;
    struct rusage before, after;
    getrusage(RUSAGE_SELF, &before);
    end((struct bytes){ last, sizeof last }, (struct bytes){ NULL, 0 }, &lengths);
    getrusage(RUSAGE_SELF, &after);
    return (size_t)(after.ru_maxrss - before.ru_maxrss);
}

/* A thread's stack, and the same bytes at another place, where a tool that knows the stack lets them be read. */
struct stack {
    pthread_t thread;
    uint8_t *at, *seen;
};

static uint8_t *mapped(FILE *file, size_t len)
{
    uint8_t *at = mmap(NULL, len, PROT_READ | PROT_WRITE, MAP_SHARED, fileno(file), 0);
    if (at == MAP_FAILED)
        fail("no memory");
    return at;
}

/* Starts the calls on a stack that is painted. */
static void start(struct stack *s, size_t page)
{
    pthread_attr_t attributes;
    FILE *file = tmpfile();
    if (file == NULL || ftruncate(fileno(file), page + RTDVS_STACK) != 0)
        fail("no file");
    s->at = mapped(file, page + RTDVS_STACK);
    s->seen = mapped(file, page + RTDVS_STACK);
    fclose(file);
    memset(s->seen, 0xA5, page + RTDVS_STACK);
    if (mprotect(s->at, page, PROT_NONE) != 0 || pthread_attr_init(&attributes) != 0 ||
        pthread_attr_setstack(&attributes, s->at + page, RTDVS_STACK) != 0 ||
        pthread_create(&s->thread, &attributes, work, NULL) != 0)
        fail("no thread");
    pthread_attr_destroy(&attributes);
}

/* Waits for the calls. The result is how much of the stack was touched. */
static size_t finish(struct stack *s, size_t page)
{
    size_t i = page;
    pthread_join(s->thread, NULL);
    while (i < page + RTDVS_STACK && s->seen[i] == 0xA5)
        i++;
    munmap(s->at, page + RTDVS_STACK);
    munmap(s->seen, page + RTDVS_STACK);
    return page + RTDVS_STACK - i;
}

int main(int argc, char **argv)
{
    static const char *const names[] = { "tasks", "machine", "list" };
    struct rtdvs_lengths lengths;
    struct bytes none = { NULL, 0 };
    struct stack stack[64];
    size_t page = (size_t)sysconf(_SC_PAGESIZE), most = 0, grown = 0;
    int at = 3, threads = argc > 3 ? atoi(argv[1]) : 0;

    if (threads < 1 || threads > 64)
        fail("usage: ./calls THREADS CALLS [ends] [OPTION FILE].. -- WORD..");
    count = atol(argv[2]);
    if (strcmp(argv[3], "ends") == 0)
        work = ends, at = 4;
    for (; at + 1 < argc && strcmp(argv[at], "--") != 0; at += 2)
        for (int i = 0; i < 3; i++)
            if (strcmp(argv[at], names[i]) == 0)
                file[i] = load(argv[at + 1]);
    for (int i = at + 1; i < argc; i++)
        words.len += strlen(argv[i]) + 1;
    words.at = fresh(words.len);
    for (size_t i = (size_t)at + 1, k = 0; i < (size_t)argc; k += strlen(argv[i]) + 1, i++)
        memcpy(words.at + k, argv[i], strlen(argv[i]) + 1);

    if (work == ends)
        grown = growth();
    wanted = call(none, none, &lengths);
    if (lengths.out >> 25 > 0 && grown > lengths.out >> 13)
        fail("the end takes memory for more of the answer");
    out = (struct bytes){ fresh(lengths.out), lengths.out };
    notes = (struct bytes){ fresh(lengths.notes), lengths.notes };
    wanted = call(out, notes, &lengths);
    for (int i = 0; i < threads; i++)
        start(&stack[i], page);
    for (int i = 0; i < threads; i++) {
        size_t touched = finish(&stack[i], page);
        most = touched > most ? touched : most;
    }
    fprintf(stderr, "stack: %zu bytes\n", most);
    if (most > RTDVS_STACK / 4 * 3)
        fail("more than three quarters of the stack");
    printf("status %d, %zu and %zu bytes\n", wanted, out.len, notes.len);
    free(words.at);
    for (int i = 0; i < 3; i++)
        free(file[i].at);
    free(out.at);
    free(notes.at);
    return 0;
}
