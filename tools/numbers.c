/* numbers.c: the calls that take numbers against rtdvs_call, for check_library.sh and speed_library.py:
 *     ./numbers compare SEED SETS     random sets, some outside the limits: the same status, numbers and places
 *     ./numbers admit|response|constrain|least|admit-text|response-text|end CALLS     so many calls for one set, by
 *                                                                                  numbers, by text, or for its end
 * It ends with 1, and says where, if an answer differs from the program's text, and with 9 if memory ran out; the answer
 * has to be empty then. All memory is as long as what it holds, so that a tool sees a read or a write outside of
 * it. */
#include "../library/rtdvs.h"

#include <inttypes.h>
#include <stdarg.h>
#include <stdio.h>
#include <stdlib.h>
#include <string.h>

enum { ROOM = 1 << 16 };

static struct rtdvs_task *tasks;
static struct rtdvs_point *points;
static size_t task_count, point_count;
static struct rtdvs_settings settings;

/* A text that grows. */
struct text {
    char at[ROOM];
    size_t len;
};

static struct text task_file, machine_file, deadline_file, words, wanted, out, notes;

static void fail(const char *why)
{
    fprintf(stderr, "numbers: %s\n%s%s%s", why, task_file.at, machine_file.at, deadline_file.at);
    exit(1);
}

static void put(struct text *text, const char *form, ...)
{
    va_list values;
    va_start(values, form);
    text->len += (size_t)vsnprintf(text->at + text->len, ROOM - text->len, form, values);
    va_end(values);
    if (text->len >= ROOM)
        fail("a text is too long");
}

static void clear(struct text *text)
{
    text->len = 0;
    text->at[0] = 0;
}

static uint64_t draw(void)
{
    static uint64_t state = 88172645463325252u;
    state ^= state << 13;
    state ^= state >> 7;
    state ^= state << 17;
    return state;
}

/* A number: mostly 1 to `usual`, at times at the limit, above it, or 0. */
static uint64_t number(uint64_t usual, uint64_t limit)
{
    switch (draw() % 40) {
    case 0: return 0;
    case 1: return limit;
    case 2: return limit + 1;
    default: return usual > 0 ? 1 + draw() % usual : 1;
    }
}

static void draw_tasks(void)
{
    static const uint64_t periods[] = { 4, 5, 6, 8, 10, 12, 20, 24, 30, 40, 60, 120 };
    free(tasks);
    task_count = draw() % 50 == 0 ? 63 + draw() % 3 : draw() % 8;
    tasks = malloc(task_count > 0 ? task_count * sizeof *tasks : 1);
    if (tasks == NULL)
        exit(9);
    for (size_t i = 0; i < task_count; i++) {
        tasks[i].period = draw() % 40 == 0 ? number(1000, UINT64_C(1) << 40) : periods[draw() % 12];
        tasks[i].worst_case = number(tasks[i].period, UINT64_C(1) << 60);
        tasks[i].offset = draw() % 20 == 0 ? number(9, UINT64_C(1) << 40) : 0;
        tasks[i].deadline = draw() % 4 == 0 ? number(tasks[i].period, tasks[i].period) : tasks[i].period - draw() % 3;
    }
}

static void draw_machine(void)
{
    uint64_t speed = 0, millivolts = 1000;
    free(points);
    point_count = draw() % 50 == 0 ? 31 + draw() % 3 : draw() % 50 == 0 ? 0 : 1 + draw() % 4;
    points = malloc(point_count > 0 ? point_count * sizeof *points : 1);
    if (points == NULL)
        exit(9);
    for (size_t i = 0; i < point_count; i++) {
        speed += draw() % 60 == 0 ? 0 : number(3, 1000000);
        millivolts = draw() % 60 == 0 ? number(900, 20000) : millivolts + draw() % 500;
        points[i].speed = speed;
        points[i].millivolts = millivolts;
    }
    settings.idle = draw() % 20 == 0 ? number(1000, 1000) : 0;
    settings.charge = draw() % 4 == 0 ? number(2, 1000000) : 0;
}

/* The files of the numbers; a task has the name of its place. */
static void write_files(void)
{
    clear(&task_file);
    for (size_t i = 0; i < task_count; i++)
        put(&task_file, "[[task]]\nname = \"%zu\"\nperiod = %" PRIu64 "\nworst = %" PRIu64 "\noffset = %" PRIu64 "\n", i + 1,
            tasks[i].period, tasks[i].worst_case, tasks[i].offset);
    clear(&machine_file);
    put(&machine_file, "idle = %" PRIu64 "\ncharge = %" PRIu64 "\n", settings.idle, settings.charge);
    for (size_t i = 0; i < point_count; i++)
        put(&machine_file, "[[point]]\nspeed = %" PRIu64 "\nmillivolts = %" PRIu64 "\n", points[i].speed, points[i].millivolts);
    clear(&deadline_file);
    put(&deadline_file, "task,deadline\n");
    for (size_t i = 0; i < task_count; i++)
        put(&deadline_file, "%zu,%" PRIu64 "\n", i + 1, tasks[i].deadline);
}

/* The program's answer for the files to the words. */
static uint8_t by_words(void)
{
    struct rtdvs_lengths lengths = { 0, 0 };
    uint8_t status = rtdvs_call((uint8_t *)words.at, words.len, (uint8_t *)task_file.at, task_file.len,
                                (uint8_t *)machine_file.at, machine_file.len, (uint8_t *)deadline_file.at,
                                deadline_file.len, (uint8_t *)out.at, ROOM - 1, (uint8_t *)notes.at, ROOM - 1, &lengths);
    out.at[lengths.out] = notes.at[lengths.notes] = 0;
    return status;
}

/* The same with an option more, if it isn't NULL. */
static uint8_t by_text(const char *command, const char *option, const char *value)
{
    clear(&words);
    put(&words, "%s%c--tasks%ctasks%c--machine%cmachine%c", command, 0, 0, 0, 0, 0);
    if (option != NULL)
        put(&words, "%s%c%s%c", option, 0, value, 0);
    return by_words();
}

static void put_wide(struct text *text, struct rtdvs_wide n)
{
    char digits[40];
    int at = 39;
    unsigned __int128 rest = ((unsigned __int128)n.high << 64) + n.low;
    digits[at] = 0;
    do
        digits[--at] = (char)('0' + (int)(rest % 10));
    while ((rest /= 10) > 0);
    put(text, "%s", digits + at);
}

/* The note of a refusal, as the program writes it. */
static void put_refusal(struct text *text, const struct rtdvs_refusal *r)
{
    static const char *const fields[] = { "period", "worst", "offset" };
    switch (r->cause) {
    case RTDVS_NO_TASKS: put(text, "tasks: no tasks\n"); break;
    case RTDVS_TOO_MANY_TASKS: put(text, "tasks: %zu tasks, at most 64\n", task_count); break;
    case RTDVS_PERIOD:
    case RTDVS_WORST_CASE:
    case RTDVS_OFFSET: put(text, "tasks: task %" PRIu64 ": %s out of range\n", r->place, fields[r->cause - RTDVS_PERIOD]); break;
    case RTDVS_HYPERPERIOD: put(text, "tasks: periods have no common multiple up to 281474976710656\n"); break;
    case RTDVS_IDLE: put(text, "machine: idle out of range\n"); break;
    case RTDVS_CHARGE: put(text, "machine: charge out of range\n"); break;
    case RTDVS_NO_POINTS: put(text, "machine: no points\n"); break;
    case RTDVS_TOO_MANY_POINTS: put(text, "machine: %zu points, at most 32\n", point_count); break;
    case RTDVS_SPEED: put(text, "machine: point %" PRIu64 ": speed out of range\n", r->place); break;
    case RTDVS_MILLIVOLTS: put(text, "machine: point %" PRIu64 ": millivolts out of range\n", r->place); break;
    case RTDVS_NOT_RISING: put(text, "machine: point %" PRIu64 ": not rising\n", r->place); break;
    case RTDVS_EDF_TEST: put(text, "denied edf "); break;
    case RTDVS_RM_TEST: put(text, "denied rm %" PRIu64 " ", r->place); break;
    case RTDVS_FIRST_RELEASE: put(text, "denied offset %" PRIu64 "\n", r->place); break;
    case RTDVS_UNITS: put(text, "denied units "); break;
    case RTDVS_NO_RESPONSE: put(text, "misses %" PRIu64 " ", r->place); break;
    case RTDVS_DEMAND: put(text, "denied demand %" PRIu64 " ", r->place); break;
    case RTDVS_DEADLINE: put(text, "deadlines: row %" PRIu64 ": deadline out of range\n", r->place); break;
    case RTDVS_JOBS: put(text, "limit: %" PRIu64 " jobs, at most %" PRIu64 "\n", r->num.low, r->cap.low); break;
    default: fail("an unknown cause");
    }
    if (r->cause == RTDVS_EDF_TEST || r->cause == RTDVS_RM_TEST || r->cause == RTDVS_NO_RESPONSE || r->cause == RTDVS_UNITS ||
        r->cause == RTDVS_DEMAND) {
        put_wide(text, r->num);
        put(text, " ");
        put_wide(text, r->cap);
        put(text, "\n");
    }
}

/* The calls. If memory ran out, the answer has to be empty. */
static uint8_t admission(struct rtdvs_admission *a)
{
    static const struct rtdvs_admission none;
    memset(a, 0xA5, sizeof *a);
    uint8_t status = rtdvs_admit(tasks, task_count, points, point_count, &settings, a);
    if (status == RTDVS_NO_MEMORY)
        exit(memcmp(a, &none, sizeof none) == 0 ? 9 : 1);
    return status;
}

static uint8_t responses(struct rtdvs_responses *r)
{
    static const struct rtdvs_responses none;
    memset(r, 0xA5, sizeof *r);
    uint8_t status = rtdvs_response(tasks, task_count, points, point_count, &settings, r);
    if (status == RTDVS_NO_MEMORY)
        exit(memcmp(r, &none, sizeof none) == 0 ? 9 : 1);
    return status;
}

static uint8_t constrained(struct rtdvs_admission *a)
{
    static const struct rtdvs_admission none;
    memset(a, 0xA5, sizeof *a);
    uint8_t status = rtdvs_constrain(tasks, task_count, points, point_count, &settings, a);
    if (status == RTDVS_NO_MEMORY)
        exit(memcmp(a, &none, sizeof none) == 0 ? 9 : 1);
    return status;
}

static uint8_t least_energy(const struct rtdvs_work *work, struct rtdvs_least_energy *a)
{
    static const struct rtdvs_least_energy none;
    memset(a, 0xA5, sizeof *a);
    uint8_t status = rtdvs_least(points, point_count, &settings, work, a);
    if (status == RTDVS_NO_MEMORY)
        exit(memcmp(a, &none, sizeof none) == 0 ? 9 : 1);
    return status;
}

/* The program's answer has to be the one by numbers. */
static void check_text(const char *command, uint8_t status)
{
    if (strcmp(wanted.at, status == RTDVS_DONE ? out.at : notes.at) != 0) {
        fprintf(stderr, "%s by numbers: %sby text: %s%s", command, wanted.at, out.at, notes.at);
        fail("another answer");
    }
}

/* A demand with the lowest speed after the words before it, or the refusal. */
static void put_admission(const char *before, uint8_t status, const struct rtdvs_admission *a)
{
    clear(&wanted);
    if (status == RTDVS_DONE) {
        put(&wanted, "%s ", before);
        put_wide(&wanted, a->num);
        put(&wanted, "/");
        put_wide(&wanted, a->den);
        put(&wanted, " %" PRIu64 "\n", a->speed);
    } else {
        put_refusal(&wanted, &a->refusal);
    }
}

static void admit(const char *scheduler)
{
    struct rtdvs_admission a;
    settings.scheduler = scheduler[0] == 'e' ? RTDVS_EDF : RTDVS_RM;
    uint8_t status = admission(&a);
    if (status != by_text("admit", "--scheduler", scheduler))
        fail("admit: another status");
    put_admission(scheduler[0] == 'e' ? "admitted edf" : "admitted rm", status, &a);
    check_text("admit", status);
}

static void constrain(void)
{
    struct rtdvs_admission a;
    uint8_t status = constrained(&a);
    if (status != by_text("constrain", "--deadlines", "deadlines"))
        fail("constrain: another status");
    put_admission("constrained", status, &a);
    check_text("constrain", status);
}

static void response(void)
{
    struct rtdvs_responses r;
    uint8_t status = responses(&r);
    if (status != by_text("response", NULL, NULL))
        fail("response: another status");
    clear(&wanted);
    if (status == RTDVS_DONE)
        for (size_t i = 0; i < task_count; i++)
            put(&wanted, "response %zu %" PRIu64 "\n", i + 1, r.ticks[i]);
    else
        put_refusal(&wanted, &r.refusal);
    for (size_t i = status == RTDVS_DONE ? task_count : 0; i < RTDVS_MOST_TASKS; i++)
        if (r.ticks[i] != 0)
            fail("response: ticks past the last task");
    check_text("response", status);
}

static void least(void)
{
    struct rtdvs_least_energy a;
    struct rtdvs_work work = { draw() % 5 == 0 ? draw() >> 8 : draw() % 3000, number(200, UINT64_C(1) << 40) };
    uint8_t status = least_energy(&work, &a);
    clear(&words);
    put(&words, "least%c--machine%cmachine%c--units%c%" PRIu64 "%c--ticks%c%" PRIu64 "%c", 0, 0, 0, 0, work.units, 0, 0,
        work.ticks, 0);
    if (status != by_words())
        fail("least: another status");
    clear(&wanted);
    if (status == RTDVS_DONE) {
        put(&wanted, "least %" PRIu64 " %" PRIu64 " %" PRIu64 " %" PRIu64 " %" PRIu64 " ", a.rounds, a.low, a.low_ticks, a.high,
            a.high_ticks);
        put_wide(&wanted, a.energy);
        put(&wanted, "\nprices ");
        put_wide(&wanted, a.unit_price);
        put(&wanted, a.tick_minus == 1 ? " minus " : " plus ");
        put_wide(&wanted, a.tick_price);
        put(&wanted, "\n");
    } else if (a.refusal.cause == RTDVS_TICKS) {
        put(&wanted, "words: 7: bad value %" PRIu64 "\n", work.ticks);
    } else {
        put_refusal(&wanted, &a.refusal);
    }
    check_text("least", status);
}

static void compare(uint64_t seed, uint64_t sets)
{
    for (; seed > 0; seed--)
        draw();
    for (uint64_t i = 0; i < sets; i++) {
        draw_tasks();
        draw_machine();
        write_files();
        admit("edf");
        admit("rm");
        response();
        constrain();
        least();
    }
    settings.scheduler = 2;
    struct rtdvs_admission a;
    if (rtdvs_admit(tasks, task_count, points, point_count, &settings, &a) != RTDVS_WORDS || a.refusal.cause != RTDVS_SCHEDULER)
        fail("a scheduler that is none");
    printf("%" PRIu64 " sets\n", sets);
}

/* The end of a run by rtdvs_end, as long as its last line: the 14 units of 16 ticks, each at 5000 millivolts. If memory ran
 * out, the buffers have to be as before, and both lengths 0. */
static uint8_t last_line(void)
{
    static const char line[] = "end 16 350000000000 0\n", before[] = "as before, and so it is";
    struct rtdvs_lengths lengths = { 7, 7 };
    char last[sizeof line], note[4] = "abc";
    clear(&words);
    put(&words, "run%c--tasks%ctasks%c--machine%cmachine%c--scheduler%cedf%c--governor%cnone%c--ticks%c16%c", 0, 0, 0, 0, 0,
        0, 0, 0, 0, 0, 0);
    memcpy(last, before, sizeof last);
    uint8_t status = rtdvs_end((uint8_t *)words.at, words.len, (uint8_t *)task_file.at, task_file.len,
                               (uint8_t *)machine_file.at, machine_file.len, NULL, 0, (uint8_t *)last, sizeof line - 1,
                               (uint8_t *)note, 3, &lengths);
    const char *left = status == RTDVS_NO_MEMORY ? before : line;
    if (memcmp(last, left, sizeof line - 1) != 0 || strcmp(note, "abc") != 0 || lengths.notes != 0 ||
        (lengths.out > 0) != (status == RTDVS_DONE))
        fail("another end");
    return status;
}

/* So many calls for the three tasks of Pillai and Shin 2001. In 280 ticks they ask for 105, 84 and 20 units; at speed 4 the
 * first job of each is done by tick 1, 2 and 2. The first deadline is shortened to 2 ticks, in which 3 units are due. The 28
 * units of the least energy take 4 ticks at speed 1 and 12 at speed 2. */
static void repeat(const char *how, uint64_t calls)
{
    static struct rtdvs_task given[] = { { 8, 3, 0, 2 }, { 10, 3, 0, 10 }, { 14, 1, 0, 14 } };
    static struct rtdvs_point entry[] = { { 1, 3000 }, { 2, 4000 }, { 4, 5000 } };
    static const struct rtdvs_work work = { 28, 16 };
    struct rtdvs_admission a;
    struct rtdvs_responses r;
    struct rtdvs_least_energy e;
    tasks = given, task_count = 3, points = entry, point_count = 3;
    write_files();
    for (uint64_t i = 0; i < calls; i++) {
        uint8_t status;
        if (strcmp(how, "admit") == 0)
            status = admission(&a);
        else if (strcmp(how, "constrain") == 0)
            status = constrained(&a);
        else if (strcmp(how, "response") == 0)
            status = responses(&r);
        else if (strcmp(how, "least") == 0)
            status = least_energy(&work, &e);
        else if (strcmp(how, "end") == 0)
            status = last_line();
        else if (strcmp(how, "admit-text") == 0)
            status = by_text("admit", "--scheduler", "edf");
        else
            status = by_text("response", NULL, NULL);
        if (status != RTDVS_DONE)
            exit(status);
        if (strcmp(how, "admit") == 0 && (a.num.low != 209 || a.num.high != 0 || a.den.low != 280 || a.speed != 1))
            fail("another admission");
        if (strcmp(how, "constrain") == 0 && (a.num.low != 3 || a.num.high != 0 || a.den.low != 2 || a.speed != 2))
            fail("another speed");
        if (strcmp(how, "response") == 0 && (r.ticks[0] != 1 || r.ticks[1] != 2 || r.ticks[2] != 2 || r.ticks[3] != 0))
            fail("other responses");
        if (strcmp(how, "least") == 0 &&
            (e.rounds != 1 || e.low_ticks != 4 || e.high_ticks != 12 || e.energy.low != 420000000000))
            fail("another least energy");
    }
}

int main(int count, char **arguments)
{
    if (count == 4 && strcmp(arguments[1], "compare") == 0) {
        compare(strtoull(arguments[2], NULL, 10), strtoull(arguments[3], NULL, 10));
        free(tasks);
        free(points);
    } else if (count == 3) {
        repeat(arguments[1], strtoull(arguments[2], NULL, 10));
    } else {
        return 2;
    }
    return 0;
}
