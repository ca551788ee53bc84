/* rtdvs.h: the answers of the program rtdvs over files in memory, in the calling process.
 *
 * Link with librtdvs: `cc example.c $(pkg-config --cflags --libs rtdvs)`. This program prints whether EDF admits a task
 * of 1 work unit every 2 ticks at speed 1, `admitted edf 1/2 1`:
 *
 *     #include <rtdvs.h>
 *     #include <stdio.h>
 *     #include <stdlib.h>
 *     #include <string.h>
 *
 *     int main(void)
 *     {
 *         static const char words[] = "admit\0--tasks\0tasks\0--machine\0machine\0--scheduler\0edf";
 *         static const char tasks[] = "[[task]]\nname = \"a\"\nperiod = 2\nworst = 1\n";
 *         static const char machine[] = "[[point]]\nspeed = 1\nmillivolts = 1000\n";
 *         struct rtdvs_lengths lengths = { 0, 0 };
 *         uint8_t *out = NULL, notes[1024];
 *         size_t room = 0;
 *         uint8_t status;
 *
 *         for (;;) {
 *             status = rtdvs_call((const uint8_t *)words, sizeof words, (const uint8_t *)tasks, strlen(tasks),
 *                                 (const uint8_t *)machine, strlen(machine), NULL, 0, out, room,
 *                                 notes, sizeof notes, &lengths);
 *             if (status != RTDVS_NO_ROOM)
 *                 break;
 *             free(out);
 *             room = lengths.out;
 *             out = malloc(room);
 *             if (out == NULL)
 *                 return RTDVS_NO_MEMORY;
 *         }
 *         if (lengths.out > 0)
 *             fwrite(out, 1, lengths.out, stdout);
 *         fwrite(notes, 1, lengths.notes < sizeof notes ? lengths.notes : sizeof notes, stderr);
 *         free(out);
 *         return status;
 *     }
 *
 * What is proved of each call, and what its caller owes, is in docs/LIBRARY.md. */
#ifndef RTDVS_H
#define RTDVS_H

#include <stddef.h>
#include <stdint.h>

#ifdef __cplusplus
extern "C" {
#endif

/* The least stack of a thread that calls, in bytes. A call takes less than three quarters of it. */
#define RTDVS_STACK 262144

/* The lengths of an answer and of its notes in bytes, also of those that the buffers have no room for. */
struct rtdvs_lengths {
    size_t out;
    size_t notes;
};

/* What rtdvs_call returns: the program's exit status (docs/FORMATS.md); the last three differ from the program's. */
enum rtdvs_status {
    RTDVS_DONE = 0,         /* the answer is in `out` */
    RTDVS_NOT_ADMITTED = 1, /* a test denies the tasks, or the units are too many */
    RTDVS_WORDS = 2,        /* the words are not a command */
    RTDVS_LOAD = 3,         /* the words name a file that is none of the call's */
    RTDVS_TEXT = 4,         /* a file is refused */
    RTDVS_LIMIT = 5,        /* a run, or a hyperperiod, releases too many jobs */
    RTDVS_OVER_WORST = 6,   /* a job's demand is above its task's worst case */
    RTDVS_DIFFERS = 7,      /* the trace is not that of its run */
    RTDVS_NO_ROOM = 8,      /* the answer is longer than `out`, which has its first part */
    RTDVS_NO_MEMORY = 9,    /* memory ran out, or a text is above its bound: buffers as before, both lengths 0 */
    RTDVS_NO_WORDS = 10     /* a word is not UTF-8 */
};

/* Does what the words ask for, as the program does with the same arguments, over three files in memory.
 *
 * words    the program's arguments without its name, each with a zero byte after it. A file is named by a fixed word:
 *          `--tasks tasks`, `--machine machine`, `--demands demands`, `--trace trace`, `--deadlines deadlines`,
 *          `--requests requests`.
 * tasks    the content of the file `tasks`.
 * machine  the content of the file `machine`.
 * list     the content of the files `demands`, `trace`, `deadlines` and `requests`: a command reads at most one of them.
 * out      gets what the program prints to standard output, as far as there is room. Bytes after it stay as they are.
 * notes    gets what the program prints to standard error, likewise. It has at most three lines of 256 bytes.
 * lengths  gets the whole length of both.
 * .._len   the size of the bytes before it. If it is 0, the pointer may be NULL (tested, not proved). A call with an
 *          `out` of size 0 only measures.
 *
 * If the call ends otherwise than with RTDVS_NO_MEMORY, both texts and both lengths depend on the words and the files
 * only; the result also depends on out_len. No file is opened, nothing is printed, and nothing is kept between calls;
 * threads may call at the same time. A call takes memory by malloc and realloc, and gives all of it back by free
 * (tested, not proved).
 *
 * Nothing checks what is passed, nor the stack: the thread has at least RTDVS_STACK bytes. `lengths` is not NULL.
 * `out`, `notes` and `lengths` overlap neither each other nor the other bytes, and no thread writes any of these bytes
 * during the call. Do not call it from a signal handler, or in the forked child of a process with threads. */
uint8_t rtdvs_call(const uint8_t *words, size_t words_len, const uint8_t *tasks, size_t tasks_len,
                   const uint8_t *machine, size_t machine_len, const uint8_t *list, size_t list_len,
                   uint8_t *out, size_t out_len, uint8_t *notes, size_t notes_len, struct rtdvs_lengths *lengths);

/* As rtdvs_call, for a caller who needs only the end of an answer, as the totals of a run: `out` gets the last bytes of
 * what the program prints to standard output, or all of it if there is room. Bytes after it stay as they are.
 *
 * `lengths` gets the whole length of both texts. The result is never RTDVS_NO_ROOM, so that it depends on the words and
 * the files only. A call keeps about twice out_len of the answer in memory, and so no trace of a run (tested, not
 * proved). */
uint8_t rtdvs_end(const uint8_t *words, size_t words_len, const uint8_t *tasks, size_t tasks_len,
                  const uint8_t *machine, size_t machine_len, const uint8_t *list, size_t list_len,
                  uint8_t *out, size_t out_len, uint8_t *notes, size_t notes_len, struct rtdvs_lengths *lengths);

/* Calls that take and answer numbers, for callers that ask often: no file is read and no text written.
 *
 * Their results are the program's exit statuses: RTDVS_DONE, RTDVS_NOT_ADMITTED if a test denies the tasks, RTDVS_TEXT if
 * a number is outside the limits of the files, RTDVS_WORDS if the scheduler is none or the ticks are out of range,
 * RTDVS_LIMIT if a hyperperiod has too many jobs, and RTDVS_NO_MEMORY. The answer and the result depend on the numbers
 * only. What is said above of the stack, of threads and of memory holds here too; the pointers are not NULL, except those
 * of no tasks or no points. */

/* A number below 2^128: low + 2^64 * high. */
struct rtdvs_wide {
    uint64_t low;
    uint64_t high;
};

/* A task: period, offset and relative deadline in ticks, worst case in work units. Only rtdvs_constrain reads the
 * deadline, which is 1 to the period. */
struct rtdvs_task {
    uint64_t period;
    uint64_t worst_case;
    uint64_t offset;
    uint64_t deadline;
};

/* An entry of the machine: its speed in work units per tick, and its voltage. */
struct rtdvs_point {
    uint64_t speed;
    uint64_t millivolts;
};

enum rtdvs_scheduler {
    RTDVS_EDF = 0,
    RTDVS_RM = 1
};

/* The cost of an idle unit in thousandths of a running one, the cost of a switch of speed in work units, and an
 * rtdvs_scheduler, which only rtdvs_admit reads. */
struct rtdvs_settings {
    uint64_t idle;
    uint64_t charge;
    uint64_t scheduler;
};

/* Why there is no answer. The limits are those of the files (docs/FORMATS.md). */
enum rtdvs_cause {
    RTDVS_NO_CAUSE = 0,        /* there is an answer, or memory ran out */
    RTDVS_NO_TASKS = 1,        /* there are no tasks */
    RTDVS_TOO_MANY_TASKS = 2,  /* there are more than RTDVS_MOST_TASKS */
    RTDVS_PERIOD = 3,          /* a period is out of range */
    RTDVS_WORST_CASE = 4,      /* a worst case is out of range */
    RTDVS_OFFSET = 5,          /* an offset is out of range */
    RTDVS_HYPERPERIOD = 6,     /* the least common multiple of the periods is above its limit */
    RTDVS_IDLE = 7,            /* the cost of an idle unit is out of range */
    RTDVS_CHARGE = 8,          /* the cost of a switch is out of range */
    RTDVS_NO_POINTS = 9,       /* there are no points */
    RTDVS_TOO_MANY_POINTS = 10, /* there are more than 32 */
    RTDVS_SPEED = 11,          /* a speed is out of range */
    RTDVS_MILLIVOLTS = 12,     /* a voltage is out of range */
    RTDVS_NOT_RISING = 13,     /* a speed is not above the one before, or a voltage is below it */
    RTDVS_SCHEDULER = 14,      /* the scheduler is none */
    RTDVS_EDF_TEST = 15,       /* the work of a hyperperiod is more than the highest speed does in it */
    RTDVS_RM_TEST = 16,        /* the work that a task's level asks for in its period is more than that */
    RTDVS_FIRST_RELEASE = 17,  /* rtdvs_response, rtdvs_constrain: a task has an offset */
    RTDVS_NO_RESPONSE = 18,    /* rtdvs_response: a task has no response; the work is its level's in its period */
    RTDVS_DEMAND = 19,         /* rtdvs_constrain: the work due within some ticks is more than the highest speed does */
    RTDVS_UNITS = 20,          /* rtdvs_least: the units are more than the highest speed does in the ticks */
    RTDVS_TICKS = 21,          /* rtdvs_least: the ticks are out of range */
    RTDVS_DEADLINE = 22,       /* rtdvs_constrain: a deadline is not 1 to its task's period */
    RTDVS_JOBS = 23            /* rtdvs_constrain: a hyperperiod has more than 100000 jobs */
};

/* The cause; the number of its task or point, from 1 on, or 0; and of a test the work units that are asked for, and those
 * that can be done. RTDVS_DEMAND has its ticks in the place of a task, RTDVS_JOBS the jobs, and the most of them. */
struct rtdvs_refusal {
    uint64_t cause;
    uint64_t place;
    struct rtdvs_wide num;
    struct rtdvs_wide cap;
};

/* A demand num/den in work units per tick, not reduced, and the lowest speed that meets it: the static demand of
 * rtdvs_admit, or the constrained demand of rtdvs_constrain. All are 0 without an answer. */
struct rtdvs_admission {
    struct rtdvs_wide num;
    struct rtdvs_wide den;
    uint64_t speed;
    struct rtdvs_refusal refusal;
};

#define RTDVS_MOST_TASKS 64

/* The response of each task in ticks, in order, and 0 past the last one; all 0 without an answer. */
struct rtdvs_responses {
    uint64_t ticks[RTDVS_MOST_TASKS];
    struct rtdvs_refusal refusal;
};

/* A number of work units, and of ticks to do them in, each 1 to 2^40. */
struct rtdvs_work {
    uint64_t units;
    uint64_t ticks;
};

/* The least energy, in units times millivolts squared times thousandths, with its certificate: over `rounds` repetitions
 * of the ticks, `low_ticks` ticks at `low` units a tick and `high_ticks` at `high` do the units and cost `energy`. The
 * prices of a unit and of a tick show that nothing costs less; that of a tick is below 0 if `tick_minus` is 1. All are 0
 * without an answer. */
struct rtdvs_least_energy {
    uint64_t rounds;
    uint64_t low;
    uint64_t low_ticks;
    uint64_t high;
    uint64_t high_ticks;
    struct rtdvs_wide energy;
    struct rtdvs_wide unit_price;
    struct rtdvs_wide tick_price;
    uint64_t tick_minus;
    struct rtdvs_refusal refusal;
};

/* Admits the tasks by the scheduler's test, as `rtdvs admit` does for files of these numbers. */
uint8_t rtdvs_admit(const struct rtdvs_task *tasks, size_t tasks_len, const struct rtdvs_point *points,
                    size_t points_len, const struct rtdvs_settings *settings, struct rtdvs_admission *answer);

/* Gives the responses under RM at the highest speed, as `rtdvs response` does for files of these numbers. No bound is
 * known on its time. */
uint8_t rtdvs_response(const struct rtdvs_task *tasks, size_t tasks_len, const struct rtdvs_point *points,
                       size_t points_len, const struct rtdvs_settings *settings, struct rtdvs_responses *answer);

/* Gives the lowest speed at which the tasks meet their deadlines under EDF, as `rtdvs constrain` does for files of these
 * numbers, with a row for each task in the file of deadlines. */
uint8_t rtdvs_constrain(const struct rtdvs_task *tasks, size_t tasks_len, const struct rtdvs_point *points,
                        size_t points_len, const struct rtdvs_settings *settings, struct rtdvs_admission *answer);

/* Gives the least energy for the work, as `rtdvs least` does for a file of these numbers. */
uint8_t rtdvs_least(const struct rtdvs_point *points, size_t points_len, const struct rtdvs_settings *settings,
                    const struct rtdvs_work *work, struct rtdvs_least_energy *answer);

#ifdef __cplusplus
}
#endif

#endif
