/* memory FILE: refuses the memory of each allocation in turn, of calls with a text and of calls that keep it. The
 * status is then 3, or the answer is whole. It is linked with --wrap=malloc,--wrap=realloc. Ends with 'N passed, M
 * failed'. */
#include "opcmds.h"
#include <stdio.h>
#include <stdlib.h>
#include <string.h>

#define COUNT_OF(a) (sizeof(a) / sizeof((a)[0]))

enum { POLICY = 1 << 20, ANSWER = 1 << 20, KEPT = 3 };

/* (a tab stands for a NUL) */
static const char *const QUESTIONS[] = {
    "explain\t--user\tANNA\t--command\tC PAYROLL\t--console\tC1\t--why",
    "who\t--command\tC PAYROLL\t--json",
    "check", /* KEPT: the next ones ask what is kept for its text, as this one does */
    "may\t--user\tANNA",
    "diff\told.csv\tnew.csv",
    "sheet",
    "explain", /* it lacks a user */
};

typedef struct answer {
    uint32_t status;
    opcmds_lengths lengths;
    uint8_t output[ANSWER], errors[ANSWER];
} answer;

static long left = -1; /* so many allocations are granted; -1: all */

void *__real_malloc(size_t size);
void *__real_realloc(void *block, size_t size);

static int is_granted(void)
{
    return left < 0 || (left > 0 && left--);
}

void *__wrap_malloc(size_t size)
{
    return is_granted() ? __real_malloc(size) : NULL;
}

void *__wrap_realloc(void *block, size_t size)
{
    return is_granted() ? __real_realloc(block, size) : NULL;
}

static int is_same(const uint8_t *got, size_t length, const uint8_t *whole, size_t full)
{
    return length == full && memcmp(got, whole, full) == 0;
}

/* Keeps the policy, if it is to be kept, and asks. */
static void ask(const uint8_t *policy, size_t length, const char *question, int is_kept, answer *to)
{
    opcmds_kept kept = {0};
    uint8_t words[256];
    size_t count = strlen(question);
    for (size_t i = 0; i < count; i++)
        words[i] = question[i] == '\t' ? 0 : (uint8_t)question[i];
    /* (the new policy of `diff` has no last row) */
    size_t shorter = length - 1;
    while (shorter > 0 && policy[shorter - 1] != '\n')
        shorter--;
    if (!is_kept)
        to->status = opcmds_ask(policy, length, policy, shorter, words, count, to->output, ANSWER, to->errors, ANSWER,
                                &to->lengths);
    else if ((to->status = opcmds_keep(policy, length, &kept)) == 0)
        to->status = opcmds_ask_kept(&kept, policy, shorter, words, count, to->output, ANSWER, to->errors, ANSWER,
                                     &to->lengths);
    opcmds_free(&kept);
}

static long passed, failed;

/* Grants one allocation more each time, until the question has all that it wants. */
static void refuse_each(const uint8_t *policy, size_t length, size_t which, int is_kept)
{
    static answer whole, got;
    ask(policy, length, QUESTIONS[which], 0, &whole);
    for (long granted = 0, is_done = 0; !is_done; granted++) {
        left = granted;
        ask(policy, length, QUESTIONS[which], is_kept, &got);
        is_done = left > 0; /* it had all that it wanted */
        left = -1;
        int is_whole = got.status == whole.status
            && is_same(got.output, got.lengths.output, whole.output, whole.lengths.output)
            && is_same(got.errors, got.lengths.errors, whole.errors, whole.lengths.errors);
        if (is_whole || (got.status == 3 && !is_done)) {
            passed++;
        } else {
            failed++;
            fprintf(stderr, "failed: %s, kept: %d, %ld granted: status %u\n", QUESTIONS[which], is_kept, granted,
                    got.status);
        }
    }
}

int main(int argc, char **argv)
{
    static uint8_t policy[POLICY];
    if (argc != 2)
        return 2;
    FILE *file = fopen(argv[1], "rb");
    if (!file)
        return 2;
    size_t length = fread(policy, 1, sizeof policy, file);
    fclose(file);
    for (size_t which = 0; which < COUNT_OF(QUESTIONS); which++) {
        refuse_each(policy, length, which, 0);
        if (which < KEPT)
            refuse_each(policy, length, which, 1);
    }
    printf("%ld passed, %ld failed\n", passed, failed);
    return failed != 0;
}
