/* sweep.c: of random task sets, how many each test admits: rtdvs.h's calls that take numbers.
 *     cc sweep.c -lrtdvs -o sweep && ./sweep [SETS]
 * Each set has five tasks on a machine of one speed, 1000 work units per tick. Without SETS there are 1000000. */
#include <rtdvs.h>

#include <inttypes.h>
#include <stdio.h>
#include <stdlib.h>

enum { TASKS = 5, SPEED = 1000 };

/* A number below 2^32 (Marsaglia 2003, xorshift). */
static uint32_t draw(void)
{
    static uint32_t state = 2463534242u;
    state ^= state << 13;
    state ^= state >> 17;
    state ^= state << 5;
    return state;
}

/* A task whose period divides 1000, and whose work is at most two fifths of what the speed does in a period. */
static struct rtdvs_task any_task(void)
{
    static const uint64_t periods[] = { 8, 10, 20, 25, 40, 50, 100, 125 };
    struct rtdvs_task task = { 0, 0, 0, 0 };
    task.period = periods[draw() % 8];
    task.worst_case = 1 + draw() % (task.period * SPEED * 2 / TASKS);
    return task;
}

int main(int count, char **words)
{
    const struct rtdvs_point point = { SPEED, 1000 };
    struct rtdvs_settings settings = { 0, 0, RTDVS_EDF };
    struct rtdvs_admission admission;
    struct rtdvs_responses responses;
    uint64_t sets = count > 1 ? strtoull(words[1], NULL, 10) : 1000000, edf = 0, rm = 0, exact = 0;

    for (uint64_t i = 0; i < sets; i++) {
        struct rtdvs_task tasks[TASKS];
        for (int k = 0; k < TASKS; k++)
            tasks[k] = any_task();
        settings.scheduler = RTDVS_EDF;
        edf += rtdvs_admit(tasks, TASKS, &point, 1, &settings, &admission) == RTDVS_DONE;
        settings.scheduler = RTDVS_RM;
        rm += rtdvs_admit(tasks, TASKS, &point, 1, &settings, &admission) == RTDVS_DONE;
        exact += rtdvs_response(tasks, TASKS, &point, 1, &settings, &responses) == RTDVS_DONE;
    }
    printf("of %" PRIu64 " sets: EDF %" PRIu64 ", RM %" PRIu64 ", RM by response times %" PRIu64 "\n", sets, edf, rm, exact);
    return 0;
}
