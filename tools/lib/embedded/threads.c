/* threads FILE: four threads with 512 KB of stack ask the same questions side by side, one of them as long as a
 * question may be, by a text and by a policy of their own that is kept, and each has the answers of one that asks
 * alone. Ends with 'N passed, M failed'. */
#include "opcmds.h"
#include <pthread.h>
#include <stdio.h>
#include <stdlib.h>
#include <string.h>

#define COUNT_OF(a) (sizeof(a) / sizeof((a)[0]))

enum { THREADS = 4, TIMES = 100, STACK = 512 << 10, LONGEST = 65536, POLICY = 1 << 20, ROOM = 1 << 18 };

static const char EXPLAIN[] = "explain\0--user\0ANNA\0--command\0C PAYROLL\0--why", WHO[] = "who\0--command\0C PAYROLL",
                  CHECK[] = "check", MAY[] = "may\0--user\0ANNA", DIFF[] = "diff\0old.csv\0new.csv", SHEET[] = "sheet";
static char allowing[LONGEST];
static const struct question {
    const char *words;
    size_t length;
} QUESTIONS[] = {
    {EXPLAIN, sizeof EXPLAIN - 1}, {WHO, sizeof WHO - 1}, {CHECK, sizeof CHECK - 1}, {MAY, sizeof MAY - 1},
    {DIFF, sizeof DIFF - 1}, {SHEET, sizeof SHEET - 1}, {allowing, sizeof allowing},
};

static uint8_t policy[POLICY];
static size_t policy_length, shorter; /* the new policy of `diff` has no last row */

typedef struct answer {
    uint32_t status;
    opcmds_lengths lengths;
    uint8_t output[ROOM], errors[ROOM];
} answer;

static answer alone[COUNT_OF(QUESTIONS)];

static void ask(size_t which, answer *to)
{
    to->status = opcmds_ask(policy, policy_length, policy, shorter, (const uint8_t *)QUESTIONS[which].words,
                            QUESTIONS[which].length, to->output, ROOM, to->errors, ROOM, &to->lengths);
}

static void ask_kept(opcmds_kept *kept, size_t which, answer *to)
{
    to->status = opcmds_ask_kept(kept, policy, shorter, (const uint8_t *)QUESTIONS[which].words,
                                 QUESTIONS[which].length, to->output, ROOM, to->errors, ROOM, &to->lengths);
}

static int is_same(const answer *one, const answer *other)
{
    return one->status == other->status && one->lengths.output == other->lengths.output
        && one->lengths.errors == other->lengths.errors
        && memcmp(one->output, other->output, one->lengths.output) == 0
        && memcmp(one->errors, other->errors, one->lengths.errors) == 0;
}

/* A list of codes that fills the longest question exactly. */
static void fill_allowing(void)
{
    static const char begins[] = "check\0--json\0--allow\0N01", code[] = ",N01";
    size_t length = sizeof begins - 1;
    memcpy(allowing, begins, length);
    for (; length < LONGEST; length += sizeof code - 1)
        memcpy(allowing + length, code, sizeof code - 1);
}

typedef struct asker {
    opcmds_kept kept; /* of the thread that starts this one, which frees it */
    long failures;
} asker;

static void *run(void *its)
{
    asker *me = its;
    answer *got = malloc(sizeof *got);
    for (size_t at = 0; got && at < TIMES * COUNT_OF(QUESTIONS); at++) {
        size_t which = at % COUNT_OF(QUESTIONS);
        ask(which, got);
        me->failures += !is_same(got, &alone[which]);
        ask_kept(&me->kept, which, got);
        me->failures += !is_same(got, &alone[which]);
    }
    me->failures += !got;
    free(got);
    return NULL;
}

int main(int argc, char **argv)
{
    if (argc != 2)
        return 2;
    FILE *file = fopen(argv[1], "rb");
    if (!file)
        return 2;
    policy_length = fread(policy, 1, sizeof policy, file);
    fclose(file);
    for (shorter = policy_length - 1; shorter > 0 && policy[shorter - 1] != '\n';)
        shorter--;
    fill_allowing();
    for (size_t which = 0; which < COUNT_OF(QUESTIONS); which++)
        ask(which, &alone[which]);
    pthread_attr_t small;
    pthread_t threads[THREADS];
    static asker askers[THREADS];
    long failed = 0;
    if (pthread_attr_init(&small) != 0 || pthread_attr_setstacksize(&small, STACK) != 0)
        return 3;
    for (size_t i = 0; i < THREADS; i++)
        if (opcmds_keep(policy, policy_length, &askers[i].kept) != 0
            || pthread_create(&threads[i], &small, run, &askers[i]) != 0)
            return 3;
    for (size_t i = 0; i < THREADS; i++) {
        pthread_join(threads[i], NULL);
        failed += askers[i].failures;
        opcmds_free(&askers[i].kept);
    }
    printf("%ld passed, %ld failed\n", (long)(2 * THREADS * TIMES * COUNT_OF(QUESTIONS)) - failed, failed);
    return failed != 0;
}
