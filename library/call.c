/* call.c: the command line of rtdvs over the library: `call run --tasks FILE --machine FILE ..`. It loads the files that
 * the words name, makes the call, writes what it left, and ends with the program's exit status. */
#define _DEFAULT_SOURCE
#include "rtdvs.h"

#include <errno.h>
#include <stdio.h>
#include <stdlib.h>
#include <string.h>
#include <sys/mman.h>

/* The most bytes of a trace, also of one that a run prints, and of any other file. */
static const size_t longest = (size_t)1 << 28, longest_file = (size_t)1 << 24;

struct bytes {
    uint8_t *at;
    size_t len, room;
};

/* An option that names a file, the name of this file in a call, and its place among the three files. */
static const struct option {
    const char *word, *name;
    int file;
} options[] = { { "--tasks", "tasks", 0 },         { "--machine", "machine", 1 },
                { "--demands", "demands", 2 },     { "--trace", "trace", 2 },
                { "--deadlines", "deadlines", 2 }, { "--requests", "requests", 2 } };

static size_t most(const struct option *option)
{
    return strcmp(option->name, "trace") == 0 ? longest : longest_file;
}

struct call {
    struct bytes words, file[3], out, notes;
    struct rtdvs_lengths lengths;
};

static void no_memory(void)
{
    fputs("no memory\n", stderr);
    exit(RTDVS_NO_MEMORY);
}

/* Makes room for this many bytes, of which the first `len` stay. */
static void make_room(struct bytes *b, size_t room)
{
    uint8_t *at = room > b->room ? realloc(b->at, room) : b->at;
    if (room > b->room && at == NULL)
        no_memory();
    b->at = at;
    b->room = room > b->room ? room : b->room;
}

/* Room for the longest trace, if there is that much: the system gives it in large pages, as they are written. */
static void reserve(struct bytes *b)
{
    uint8_t *at = aligned_alloc((size_t)1 << 21, longest);
    if (at == NULL)
        return;
    madvise(at, longest, MADV_HUGEPAGE);
    free(b->at);
    b->at = at;
    b->room = longest;
}

static void add(struct bytes *b, const void *more, size_t len)
{
    if (len > b->room - b->len)
        make_room(b, 2 * (b->len + len));
    if (len > 0)
        memcpy(b->at + b->len, more, len);
    b->len += len;
}

static void add_word(struct bytes *words, const char *word)
{
    add(words, word, strlen(word) + 1);
}

/* Whether the file could be read. Of one that is too long a byte more than the most is read, which the call refuses. */
static int load(struct bytes *b, const char *name, size_t most)
{
    uint8_t piece[65536];
    size_t len;
    int loaded;
    FILE *file = fopen(name, "rb");
    if (file == NULL && errno == ENOMEM)
        no_memory();
    if (file == NULL)
        return 0;
    b->len = 0;
    while (b->len <= most && (len = fread(piece, 1, sizeof piece, file)) > 0)
        add(b, piece, len > most + 1 - b->len ? most + 1 - b->len : len);
    loaded = !ferror(file);
    fclose(file);
    return loaded;
}

/* One call, made again where a buffer has too little room. */
static uint8_t answer(struct call *c)
{
    for (;;) {
        uint8_t status = rtdvs_call(c->words.at, c->words.len, c->file[0].at, c->file[0].len, c->file[1].at,
                                    c->file[1].len, c->file[2].at, c->file[2].len, c->out.at, c->out.room,
                                    c->notes.at, c->notes.room, &c->lengths);
        if (c->lengths.out <= c->out.room && c->lengths.notes <= c->notes.room)
            return status;
        make_room(&c->out, c->lengths.out);
        make_room(&c->notes, c->lengths.notes);
    }
}

static const struct option *option_of(const char *word)
{
    for (size_t i = 0; i < sizeof options / sizeof *options; i++)
        if (strcmp(word, options[i].word) == 0)
            return &options[i];
    return NULL;
}

/* The words of a command, with the names that files have in a call; one that can't be loaded gets a name that none has.
 * Each option but `--probes` has a value. */
static void name_files(struct call *c, int argc, char **argv)
{
    c->words.len = 0;
    add_word(&c->words, argv[1]);
    for (int i = 2; i < argc; i++) {
        const struct option *option = option_of(argv[i]);
        add_word(&c->words, argv[i]);
        if (i + 1 == argc || strcmp(argv[i], "--probes") == 0)
            continue;
        i++;
        if (option == NULL)
            add_word(&c->words, argv[i]);
        else
            add_word(&c->words, load(&c->file[option->file], argv[i], most(option)) ? option->name : "absent");
    }
}

/* Writes what the call left. The result is the exit status, which is 8 where standard output fails. */
static int write_out(const struct call *c, uint8_t status)
{
    if (c->lengths.out > 0 && (fwrite(c->out.at, 1, c->lengths.out, stdout) != c->lengths.out || fflush(stdout) != 0)) {
        fputs("write: out failed\n", stderr);
        return 8;
    }
    if (status == RTDVS_NO_MEMORY)
        no_memory();
    if (c->lengths.notes > 0)
        fwrite(c->notes.at, 1, c->lengths.notes, stderr);
    return status;
}

int main(int argc, char **argv)
{
    static struct call c;
    uint8_t status;
    int end;

    for (int i = 1; i < argc; i++)
        add_word(&c.words, argv[i]);
    /* Without a file the call says whether the words are a command; if they are not, each stays as it is. */
    status = answer(&c);
    if (status != RTDVS_WORDS && status != RTDVS_NO_WORDS && status != RTDVS_DONE) {
        name_files(&c, argc, argv);
        reserve(&c.out);
        status = answer(&c);
    }
    end = write_out(&c, status);
    free(c.words.at);
    for (int i = 0; i < 3; i++)
        free(c.file[i].at);
    free(c.out.at);
    free(c.notes.at);
    return end;
}
