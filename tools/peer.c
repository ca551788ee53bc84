/* peer.c: `rtdvs run` in plain C, with one buffer for its output; docs/SPEED.md compares the two.
 *
 *     cc -O2 -o peer peer.c
 *     ./peer run --tasks F --machine F [--demands F] --scheduler S --governor G --ticks N
 *
 * It prints the version 1 trace that `rtdvs run` prints, for good input files:
 * from event to event, with binary heaps for the ready jobs and the calendar of
 * releases, counters in the governors, and one big output buffer.  Its file
 * readers know the usual spelling alone (`key = value` lines under [[task]] and
 * [[point]]; plain or quoted CSV fields); on anything else it ends with 4.
 * Words are taken in any order and hardly checked.
 */
#include <stdint.h>
#include <stdio.h>
#include <stdlib.h>
#include <string.h>
#include <unistd.h>

typedef uint64_t u64;
typedef unsigned __int128 u128;
typedef __int128 i128;

enum { MOST_TASKS = 64, MOST_POINTS = 32, MOST_JOBS = 100000 };
enum { NONE, STATIC, CC, LA };

static int task_count, point_count;
static char name[MOST_TASKS][33];
static int name_len[MOST_TASKS];
static u64 period[MOST_TASKS], worst[MOST_TASKS], offset_of[MOST_TASKS], charged[MOST_TASKS];
static u64 speed_at[MOST_POINTS], volts_at[MOST_POINTS], idle_share, charge;
static u64 hyper;

static int edf, governor;
static u64 total;

static void fail(int status, const char *text)
{
    fprintf(stderr, "%s\n", text);
    exit(status);
}

/* ---- files ---------------------------------------------------------------- */

static char *load(const char *path, size_t *size)
{
    FILE *f = fopen(path, "rb");
    if (!f)
        fail(3, "load");
    fseek(f, 0, SEEK_END);
    long n = ftell(f);
    rewind(f);
    char *data = malloc(n + 1);
    if (!data || fread(data, 1, n, f) != (size_t)n)
        fail(3, "load");
    data[n] = 0;
    fclose(f);
    *size = n;
    return data;
}

static char *blanks(char *p)
{
    while (*p == ' ' || *p == '\t' || *p == '\r')
        p++;
    return p;
}

/* One line `key = value`; gives the number, or copies the text to `text`. */
static u64 value_of(char *p, char *text)
{
    p = blanks(p);
    if (*p++ != '=')
        fail(4, "toml");
    p = blanks(p);
    if (*p == '"') {
        int n = 0;
        for (p++; *p && *p != '"' && n < 32; p++)
            text[n++] = *p;
        text[n] = 0;
        return 0;
    }
    u64 v = 0;
    if (*p < '0' || *p > '9')
        fail(4, "toml");
    for (; (*p >= '0' && *p <= '9') || *p == '_'; p++)
        if (*p != '_')
            v = v * 10 + (*p - '0');
    return v;
}

static int is_key(char *p, const char *key)
{
    size_t n = strlen(key);
    return !strncmp(p, key, n) && (p[n] == ' ' || p[n] == '=' || p[n] == '\t');
}

static void read_toml(const char *path)
{
    size_t size;
    char *data = load(path, &size), *p = data, unused[64];
    while (*p) {
        char *end = strchr(p, '\n');
        if (end)
            *end = 0;
        char *q = blanks(p);
        int t = task_count ? task_count - 1 : 0, e = point_count ? point_count - 1 : 0;
        if (!strncmp(q, "[[task]]", 8)) {
            if (++task_count > MOST_TASKS)
                fail(4, "tasks");
        } else if (!strncmp(q, "[[point]]", 9)) {
            if (++point_count > MOST_POINTS)
                fail(4, "points");
        } else if (is_key(q, "name"))
            value_of(q + 4, name[t]), name_len[t] = strlen(name[t]);
        else if (is_key(q, "period"))
            period[t] = value_of(q + 6, unused);
        else if (is_key(q, "worst"))
            worst[t] = value_of(q + 5, unused);
        else if (is_key(q, "offset"))
            offset_of[t] = value_of(q + 6, unused);
        else if (is_key(q, "speed"))
            speed_at[e] = value_of(q + 5, unused);
        else if (is_key(q, "millivolts"))
            volts_at[e] = value_of(q + 10, unused);
        else if (is_key(q, "idle"))
            idle_share = value_of(q + 4, unused);
        else if (is_key(q, "charge"))
            charge = value_of(q + 6, unused);
        else if (*q && *q != '#')
            fail(4, "toml");
        if (!end)
            break;
        p = end + 1;
    }
    free(data);
}

/* The demands: a table with open places, keyed by job and task. */
struct cell { u64 job, units; int task; };
static struct cell *cells;
static u64 mask;

static struct cell *find(int task, u64 job)
{
    u64 at = (job * 0x9E3779B97F4A7C15u ^ (u64)task * 0xC2B2AE3D27D4EB4Fu) >> 20 & mask;
    while (cells[at].job && (cells[at].job != job || cells[at].task != task))
        at = (at + 1) & mask;
    return &cells[at];
}

static char *field(char *p, char *end, char *text, int *len)
{
    int n = 0, quoted = p < end && *p == '"';
    p += quoted;
    while (p < end && (quoted ? *p != '"' : *p != ',' && *p != '\n' && *p != '\r')) {
        if (n < 63)
            text[n++] = *p;
        p++;
    }
    *len = n;
    return p + quoted;
}

static u64 decimal(const char *text, int len)
{
    u64 v = 0;
    for (int i = 0; i < len; i++)
        v = v * 10 + (text[i] - '0');
    return v;
}

static void read_demands(const char *path)
{
    size_t size, rows = 1;
    char *data = load(path, &size), *p = data, *end = data + size;
    for (size_t i = 0; i < size; i++)
        rows += data[i] == '\n';
    for (mask = 16; mask < 2 * rows; mask *= 2)
        ;
    cells = calloc(mask--, sizeof *cells);
    if (!cells)
        fail(9, "memory");
    for (int row = 0; p < end; row++) {
        char text[3][64];
        int len[3];
        for (int i = 0; i < 3; i++) {
            p = field(p, end, text[i], &len[i]);
            if (i < 2 && *p++ != ',')
                fail(4, "csv");
        }
        while (p < end && (*p == '\n' || *p == '\r'))
            p++;
        if (row == 0)
            continue;
        int task = 0;
        while (task < task_count && (name_len[task] != len[0] || memcmp(name[task], text[0], len[0])))
            task++;
        if (task == task_count)
            fail(4, "csv task");
        u64 job = decimal(text[1], len[1]), units = decimal(text[2], len[2]);
        if (units > worst[task])
            fail(6, "over worst");
        struct cell *c = find(task, job);
        c->task = task, c->job = job, c->units = units;
    }
    free(data);
}

/* ---- output --------------------------------------------------------------- */

static char buffer[1 << 16];
static size_t filled;

static void flush(void)
{
    size_t at = 0;
    while (at < filled) {
        ssize_t n = write(1, buffer + at, filled - at);
        if (n <= 0)
            fail(8, "write: out failed");
        at += n;
    }
    filled = 0;
}

static inline void room(void)
{
    if (filled + 512 > sizeof buffer)
        flush();
}

static inline void put(const char *text, size_t n)
{
    memcpy(buffer + filled, text, n);
    filled += n;
#ifdef LINES /* one write a line, as rtdvs does */
    if (n && text[n - 1] == '\n')
        flush();
#endif
}

#define WORD(text) put(text, sizeof text - 1)

static inline void mark(char c)
{
    buffer[filled++] = c;
#ifdef LINES
    if (c == '\n')
        flush();
#endif
}

static inline void num64(u64 v)
{
    static const char pairs[] =
        "00010203040506070809101112131415161718192021222324252627282930313233343536373839"
        "40414243444546474849505152535455565758596061626364656667686970717273747576777879"
        "8081828384858687888990919293949596979899";
    char text[20];
    int at = 20;
    while (v >= 100) {
        at -= 2;
        memcpy(text + at, pairs + 2 * (v % 100), 2);
        v /= 100;
    }
    if (v >= 10) {
        at -= 2;
        memcpy(text + at, pairs + 2 * v, 2);
    } else
        text[--at] = '0' + v;
    put(text + at, 20 - at);
}

static void num128(u128 v)
{
    if (v <= UINT64_MAX) {
        num64((u64)v);
        return;
    }
    const u64 ten18 = 1000000000000000000u;
    num128(v / ten18);
    u64 low = (u64)(v % ten18);
    for (int i = 17; i >= 0; i--, low /= 10)
        buffer[filled + i] = '0' + low % 10;
    filled += 18;
}

static inline void position(u64 tick, u64 offset)
{
    num64(tick);
    mark(':');
    num64(offset);
}

/* ---- heaps of (key, task) -------------------------------------------------- */

struct item { u64 key; int task; };
struct heap { int n; struct item at[MOST_TASKS]; };

static inline int before(struct item a, struct item b)
{
    return a.key < b.key || (a.key == b.key && a.task < b.task);
}

static void insert(struct heap *h, struct item x)
{
    int i = h->n++;
    while (i && before(x, h->at[(i - 1) / 2])) {
        h->at[i] = h->at[(i - 1) / 2];
        i = (i - 1) / 2;
    }
    h->at[i] = x;
}

/* Puts x at the top in place of the first. */
static void sink(struct heap *h, struct item x)
{
    int i = 0;
    for (;;) {
        int child = 2 * i + 1;
        if (child >= h->n)
            break;
        if (child + 1 < h->n && before(h->at[child + 1], h->at[child]))
            child++;
        if (!before(h->at[child], x))
            break;
        h->at[i] = h->at[child];
        i = child;
    }
    h->at[i] = x;
}

static void take_first(struct heap *h)
{
    struct item last = h->at[--h->n];
    if (h->n)
        sink(h, last);
}

/* ---- state and governors --------------------------------------------------- */

static u64 due[MOST_TASKS], job[MOST_TASKS], used[MOST_TASKS], dem[MOST_TASKS], rate[MOST_TASKS];
static unsigned char done[MOST_TASKS];
static int rm[MOST_TASKS];

static u128 static_num, static_den;
static u128 cc_sum;                             /* EDF cc: the sum of Vi*(H/Pi) */
static u64 allotted[MOST_TASKS], allotted_sum, next_due, static_speed;   /* RM cc */
static int by_due[MOST_TASKS];                  /* la: tasks in EDF order */
static u128 u_of[MOST_TASKS], u_sum, q_all;

static int lowest(u128 num, u128 den)
{
    int i = 0;
    while (i < point_count - 1 && num > speed_at[i] * den)
        i++;
    return i;
}

static void place_by_due(int task)
{
    int i = 0;
    while (by_due[i] != task)
        i++;
    for (; i + 1 < task_count; i++) {
        int next = by_due[i + 1];
        if (due[next] > due[task] || (due[next] == due[task] && next > task))
            break;
        by_due[i] = next;
    }
    by_due[i] = task;
}

static void allot(u64 now)
{
    next_due = due[0];
    for (int i = 1; i < task_count; i++)
        if (due[i] < next_due)
            next_due = due[i];
    u64 space = (next_due - now) * static_speed;
    allotted_sum = space;
    for (int k = 0; k < task_count; k++) {
        int i = rm[k];
        u64 left = done[i] ? 0 : charged[i] - used[i];
        allotted[i] = left < space ? left : space;
        space -= allotted[i];
    }
    allotted_sum -= space;
}

static inline u128 mul_div(u128 a, u64 b, u64 d, int up)
{
    if (a >> 64 == 0) {
        u64 product;
        if (!__builtin_mul_overflow((u64)a, b, &product))
            return product / d + (up && product % d);
    }
    u128 product = a * b;
    return product / d + (up && product % d);
}

static void ahead(u64 now, u128 *num, u128 *den)
{
    u64 first = due[by_due[0]];
    u128 u = u_sum, s = 0;
    for (int k = task_count - 1; k >= 0; k--) {
        int i = by_due[k];
        u64 length = due[i] - first, left = done[i] ? 0 : charged[i] - used[i];
        if (length == 0) {
            s += left;
            continue;
        }
        u -= u_of[i];
        if (!left)
            continue;
        u128 space = mul_div(q_all - u, length, hyper, 0);
        u64 x = left > space ? left - (u64)space : 0;
        u += mul_div(left - x, hyper, length, 1);
        s += x;
    }
    *num = s;
    *den = first - now;
}

static void published(u64 now, u128 *num, u128 *den)
{
    if (governor == NONE)
        *num = speed_at[point_count - 1], *den = 1;
    else if (governor == STATIC)
        *num = static_num, *den = static_den;
    else if (governor == LA)
        ahead(now, num, den);
    else if (edf)
        *num = cc_sum, *den = hyper;
    else
        *num = allotted_sum, *den = next_due - now;
}

static inline void ran(int i, u64 units)
{
    if (!edf && governor == CC && allotted[i]) {
        u64 less = allotted[i] < units ? allotted[i] : units;
        allotted[i] -= less;
        allotted_sum -= less;
    }
}

static inline void finish(int i)
{
    if (governor == CC) {
        if (edf)
            cc_sum -= (u128)(charged[i] - used[i]) * rate[i];
        else {
            allotted_sum -= allotted[i];
            allotted[i] = 0;
        }
    }
    done[i] = 1;
}

/* ---- admission -------------------------------------------------------------- */

static u64 gcd(u64 a, u64 b)
{
    while (b) {
        u64 r = a % b;
        a = b;
        b = r;
    }
    return a;
}

static void prepare(void)
{
    u64 fm = speed_at[point_count - 1];
    hyper = 1;
    for (int i = 0; i < task_count; i++) {
        u128 h = (u128)(hyper / gcd(hyper, period[i])) * period[i];
        if (h > (u64)1 << 48)
            fail(4, "hyper");
        hyper = (u64)h;
    }
    for (int i = 0; i < task_count; i++) {
        charged[i] = worst[i] + 2 * charge;
        rate[i] = hyper / period[i];
        u_of[i] = (u128)charged[i] * rate[i];
        u_sum += u_of[i];
        due[i] = offset_of[i];
        done[i] = 1;
        int k = i;                                /* insertion in RM order and in EDF order */
        for (; k && period[rm[k - 1]] > period[i]; k--)
            rm[k] = rm[k - 1];
        rm[k] = i;
        for (k = i; k && due[by_due[k - 1]] > due[i]; k--)
            by_due[k] = by_due[k - 1];
        by_due[k] = i;
    }
    q_all = (u128)fm * hyper;
    if (edf) {
        static_num = u_sum, static_den = hyper;
        if (u_sum > q_all)
            fail(1, "denied edf");
    } else {
        for (int k = 0; k < task_count; k++) {
            u128 s = 0;
            u64 p = period[rm[k]];
            for (int l = 0; l <= k; l++)
                s += (u128)((p + period[rm[l]] - 1) / period[rm[l]]) * charged[rm[l]];
            if (s > (u128)fm * p)
                fail(1, "denied rm");
            if (k == 0 || s * static_den > static_num * p)
                static_num = s, static_den = p;
        }
    }
    static_speed = speed_at[lowest(static_num, static_den)];
    u128 jobs = 0;
    for (int i = 0; i < task_count; i++)
        if (offset_of[i] < total)
            jobs += (total - offset_of[i] + period[i] - 1) / period[i];
    if (jobs > MOST_JOBS)
        fail(5, "limit");
    if (!edf)
        allot(0);
}

/* ---- the run ----------------------------------------------------------------- */

static void run(void)
{
    struct heap ready = { 0 }, calendar = { 0 };
    u128 run_energy = 0, idle_energy = 0;
    u64 now = 0;
    for (int i = 0; i < task_count; i++)
        insert(&calendar, (struct item){ offset_of[i], i });
    while (now < total) {
        int released = 0;
        while (calendar.at[0].key == now) {
            int i = calendar.at[0].task;
            released = 1;
            sink(&calendar, (struct item){ now + period[i], i });
            job[i]++;
            due[i] += period[i];
            if (governor == CC && edf)
                cc_sum += (u128)(charged[i] - (job[i] > 1 ? used[i] : 0)) * rate[i];
            if (governor == LA)
                place_by_due(i);
            used[i] = 0;
            done[i] = 0;
            struct cell *c = mask ? find(i, job[i]) : 0;
            dem[i] = (c && c->job ? c->units : worst[i]) + 2 * charge;
            room();
            WORD("release ");
            num64(now);
            mark(' ');
            put(name[i], name_len[i]);
            mark(' ');
            num64(job[i]);
            mark('\n');
            if (dem[i] == 0) {
                finish(i);
                WORD("done ");
                position(now, 0);
                mark(' ');
                put(name[i], name_len[i]);
                mark(' ');
                num64(job[i]);
                WORD(" 0\n");
            } else
                insert(&ready, (struct item){ edf ? due[i] : period[i], i });
        }
        if (released && !edf && governor == CC)
            allot(now);
        u128 num, den;
        published(now, &num, &den);
        int point = lowest(num, den);
        u64 speed = speed_at[point];
        room();
        WORD("speed ");
        num64(now);
        mark(' ');
        num64(speed);
        mark(' ');
        num128(num);
        mark('/');
        num128(den);
        mark('\n');
        u64 stop = calendar.at[0].key < total ? calendar.at[0].key : total;
        if (ready.n) {
            int i = ready.at[0].task;
            u64 need = now + (dem[i] - used[i] + speed - 1) / speed;
            if (need < stop)
                stop = need;
        }
        u64 space = (stop - now) * speed, unit = 0, tick = now, offset = 0;
        u64 square = volts_at[point] * volts_at[point];
        while (ready.n && unit < space) {
            int i = ready.at[0].task;
            u64 left = dem[i] - used[i], units = left < space - unit ? left : space - unit;
            ran(i, units);
            used[i] += units;
            unit += units;
            u128 energy = (u128)units * (square * 1000);
            run_energy += energy;
            room();
            WORD("run ");
            position(tick, offset);
            mark(' ');
            tick = now + unit / speed;
            offset = unit % speed;
            position(tick, offset);
            mark(' ');
            put(name[i], name_len[i]);
            mark(' ');
            num64(job[i]);
            mark(' ');
            num64(units);
            mark(' ');
            num128(energy);
            mark('\n');
            if (units == left) {
                take_first(&ready);
                finish(i);
                WORD("done ");
                position(tick, offset);
                mark(' ');
                put(name[i], name_len[i]);
                mark(' ');
                num64(job[i]);
                mark(' ');
                num64(used[i]);
                mark('\n');
            }
        }
        if (unit < space) {
            u128 energy = (u128)(space - unit) * (square * idle_share);
            idle_energy += energy;
            room();
            WORD("idle ");
            position(tick, offset);
            mark(' ');
            position(stop, 0);
            mark(' ');
            num64(space - unit);
            mark(' ');
            num128(energy);
            mark('\n');
        }
        now = stop;
    }
    room();
    WORD("end ");
    num64(total);
    mark(' ');
    num128(run_energy);
    mark(' ');
    num128(idle_energy);
    mark('\n');
    flush();
}

int main(int argc, char **argv)
{
    const char *tasks = 0, *machine = 0, *demands = 0, *scheduler = "", *rule = "";
    for (int i = 2; i + 1 < argc; i += 2) {
        const char *option = argv[i], *value = argv[i + 1];
        if (!strcmp(option, "--tasks"))
            tasks = value;
        else if (!strcmp(option, "--machine"))
            machine = value;
        else if (!strcmp(option, "--demands"))
            demands = value;
        else if (!strcmp(option, "--scheduler"))
            scheduler = value;
        else if (!strcmp(option, "--governor"))
            rule = value;
        else if (!strcmp(option, "--ticks"))
            total = decimal(value, strlen(value));
        else
            fail(2, "words");
    }
    if (argc < 2 || strcmp(argv[1], "run") || !tasks || !machine || !total)
        fail(2, "words");
    edf = !strcmp(scheduler, "edf");
    governor = !strcmp(rule, "none") ? NONE : !strcmp(rule, "static") ? STATIC : !strcmp(rule, "cc") ? CC : LA;
    read_toml(tasks);
    read_toml(machine);
    if (!task_count || !point_count)
        fail(4, "empty");
    if (demands)
        read_demands(demands);
    prepare();
    room();
    WORD("trace 1\nplan ");
    put(scheduler, strlen(scheduler));
    mark(' ');
    put(rule, strlen(rule));
    mark(' ');
    num64(total);
    mark('\n');
    run();
    return 0;
}
