/* stand_in.c: a library with the functions of librtdvs.so, for the tests of how the package calls it. It answers the
 * call by which a library is tried, and others by their first word:
 *     workload --seed N       "N", later for a seed up to 3, so that answers on several threads come in another order;
 *                             most_callers is the most that have waited at a time
 *     run --ticks N           N bytes, and as many of notes
 *     least                   what it was given: the words, a line each, and the three files with their lengths
 *     admit                   memory runs out
 *     response                nothing before some seconds are over
 *     migrate                 each time more than there is room for
 * rtdvs_end gives the end of the same answers. The calls with numbers answer what they were given, place by place: of the
 * last task and the last point. rtdvs_admit denies under RM, and refuses a task of period 1 for a cause that is none of a
 * test; rtdvs_response denies offsets; rtdvs_constrain refuses a period of 2 ticks for too many jobs, and denies one of 3. */
#include "../../library/rtdvs.h"

#include <stdio.h>
#include <stdlib.h>
#include <string.h>
#include <unistd.h>

int most_callers;
static int callers;

static size_t put(const char *text, size_t len, uint8_t *room, size_t room_len)
{
    memcpy(room, text, len < room_len ? len : room_len);
    return len;
}

static size_t shown(const uint8_t *const *texts, const size_t *lens, uint8_t *out, size_t out_len)
{
    char line[4096];
    size_t len = 0;
    for (int i = 0; i < 4; i++) {
        len += snprintf(line + len, sizeof line - len, "%zu ", lens[i]);
        for (size_t k = 0; k < lens[i] && len < sizeof line - 2; k++)
            line[len++] = texts[i][k] == 0 ? ' ' : (char)texts[i][k];
        line[len++] = '\n';
    }
    return put(line, len, out, out_len);
}

uint8_t rtdvs_call(const uint8_t *words, size_t words_len, const uint8_t *tasks, size_t tasks_len,
                   const uint8_t *machine, size_t machine_len, const uint8_t *list, size_t list_len, uint8_t *out,
                   size_t out_len, uint8_t *notes, size_t notes_len, struct rtdvs_lengths *lengths)
{
    const char *command = (const char *)words, *option = command + strlen(command) + 1;
    const char *value = option < command + words_len ? option + strlen(option) + 1 : "";
    char line[32];
    *lengths = (struct rtdvs_lengths) { 0, 0 };
    if (strcmp(command, "constrain") == 0) {
        lengths->out = put("constrained 1/1 1\n", 18, out, out_len);
    } else if (strcmp(command, "workload") == 0) {
        int now = __atomic_add_fetch(&callers, 1, __ATOMIC_SEQ_CST);
        if (now > most_callers)
            most_callers = now;
        usleep(atoi(value) > 3 ? 0 : 200000);
        __atomic_sub_fetch(&callers, 1, __ATOMIC_SEQ_CST);
        lengths->out = put(line, snprintf(line, sizeof line, "%s\n", value), out, out_len);
    } else if (strcmp(command, "run") == 0) {
        lengths->out = lengths->notes = atoi(value);
        memset(out, 'o', lengths->out < out_len ? lengths->out : out_len);
        memset(notes, 'n', lengths->notes < notes_len ? lengths->notes : notes_len);
    } else if (strcmp(command, "least") == 0) {
        lengths->out = shown((const uint8_t *[]) { words, tasks, machine, list },
                             (size_t[]) { words_len, tasks_len, machine_len, list_len }, out, out_len);
    } else if (strcmp(command, "admit") == 0) {
        return 9;
    } else if (strcmp(command, "response") == 0) {
        sleep(60);
    } else {
        lengths->out = out_len + 1;
    }
    return lengths->out > out_len ? 8 : 0;
}

uint8_t rtdvs_end(const uint8_t *words, size_t words_len, const uint8_t *tasks, size_t tasks_len,
                  const uint8_t *machine, size_t machine_len, const uint8_t *list, size_t list_len, uint8_t *out,
                  size_t out_len, uint8_t *notes, size_t notes_len, struct rtdvs_lengths *lengths)
{
    size_t room = 1 << 20;
    uint8_t *whole = malloc(room);
    uint8_t status = rtdvs_call(words, words_len, tasks, tasks_len, machine, machine_len, list, list_len, whole, room,
                                notes, notes_len, lengths);
    size_t kept = lengths->out < out_len ? lengths->out : out_len;
    if (lengths->out <= room)
        memcpy(out, whole + lengths->out - kept, kept);
    free(whole);
    return status;
}

uint8_t rtdvs_admit(const struct rtdvs_task *tasks, size_t tasks_len, const struct rtdvs_point *points, size_t points_len,
                    const struct rtdvs_settings *settings, struct rtdvs_admission *answer)
{
    struct rtdvs_task task = tasks[tasks_len - 1];
    struct rtdvs_point point = points[points_len - 1];
    memset(answer, 0, sizeof *answer);
    if (task.period == 1) {
        answer->refusal.cause = RTDVS_PERIOD;
        return RTDVS_TEXT;
    }
    if (settings->scheduler == RTDVS_RM) {
        answer->refusal = (struct rtdvs_refusal) { RTDVS_RM_TEST, tasks_len, { task.worst_case, 1 }, { point.speed, 0 } };
        return RTDVS_NOT_ADMITTED;
    }
    answer->num = (struct rtdvs_wide) { task.worst_case, 2 };
    answer->den = (struct rtdvs_wide) { task.period, tasks_len };
    answer->speed = point.speed;
    return RTDVS_DONE;
}

uint8_t rtdvs_constrain(const struct rtdvs_task *tasks, size_t tasks_len, const struct rtdvs_point *points,
                        size_t points_len, const struct rtdvs_settings *settings, struct rtdvs_admission *answer)
{
    struct rtdvs_task task = tasks[tasks_len - 1];
    memset(answer, 0, sizeof *answer);
    if (task.period == 2) {
        answer->refusal = (struct rtdvs_refusal) { RTDVS_JOBS, 0, { 100001, 0 }, { 100000, 0 } };
        return RTDVS_LIMIT;
    }
    if (task.period == 3) {
        answer->refusal = (struct rtdvs_refusal) { RTDVS_DEMAND, task.deadline, { task.worst_case, 1 }, { 1, 0 } };
        return RTDVS_NOT_ADMITTED;
    }
    answer->num = (struct rtdvs_wide) { tasks[0].deadline, task.deadline };
    answer->den = (struct rtdvs_wide) { task.period, settings->charge };
    answer->speed = points[points_len - 1].speed;
    return RTDVS_DONE;
}

uint8_t rtdvs_response(const struct rtdvs_task *tasks, size_t tasks_len, const struct rtdvs_point *points,
                       size_t points_len, const struct rtdvs_settings *settings, struct rtdvs_responses *answer)
{
    memset(answer, 0, sizeof *answer);
    for (size_t i = 0; i < tasks_len; i++) {
        answer->ticks[i] = tasks[i].period + settings->charge + points_len;
        if (tasks[i].offset > 0) {
            answer->refusal.cause = RTDVS_FIRST_RELEASE;
            answer->refusal.place = i + 1;
            return RTDVS_NOT_ADMITTED;
        }
    }
    return RTDVS_DONE;
}

uint8_t rtdvs_least(const struct rtdvs_point *points, size_t points_len, const struct rtdvs_settings *settings,
                    const struct rtdvs_work *work, struct rtdvs_least_energy *answer)
{
    *answer = (struct rtdvs_least_energy) { work->ticks, points_len, settings->idle, points[points_len - 1].millivolts,
                                            settings->charge, { 1, work->units }, { 2, 0 }, { 3, 0 }, work->units % 2, { 0 } };
    return RTDVS_DONE;
}
