/* hostile FILE COUNT SEED [lying]: asks about policies with bytes turned, by questions that are turned, too, into rooms
 * of all sizes. Nothing may be written past a room, what is written has to be the beginning of the whole answer, and
 * the same question has the same answer, twice by a policy that is kept, too; what was freed answers by a text of 0
 * bytes. Ends with 'N passed, M failed'. `lying` passes each question as one byte longer than it is, which a checker of
 * memory has to see. */
#include "opcmds.h"
#include <stdio.h>
#include <stdlib.h>
#include <string.h>

#define COUNT_OF(a) (sizeof(a) / sizeof((a)[0]))

enum { POLICY = 1 << 20, QUESTION = 1024, WHOLE = 1 << 20, ROOM = 512, GUARD = 64, WORDS = 8 };

static const char *const ANY[] = {
    "explain", "who", "check", "may", "diff", "sheet", "commands", "run", "--user", "ANNA", "BERT", "-", "--command",
    "C PAYROLL", "V 0A80,OFFLINE", "D A,L", "--console", "C1", "C3", "--why", "--json", "--allowed", "--resource",
    "MVS.CANCEL.JOB.PAYROLL", "--level", "UPDATE", "--class", "CONSOLE", "--as", "STC:PAY", "--allow", "N01,N02",
    "--help", "--version", "--db", "--policy", "db:x", "x", "", "\xff",
};

static const char *const GOOD[][WORDS] = {
    {"explain", "--user", "ANNA", "--command", "C PAYROLL", "--console", "C1", "--why"},
    {"explain", "--user", "BERT", "--resource", "MVS.CANCEL.JOB.PAYROLL", "--level", "UPDATE", "--json"},
    {"who", "--command", "C PAYROLL", "--json"},
    {"who", "--command", "V 0A80,OFFLINE", "--allowed"},
    {"check", "--json"},
    {"check"},
    {"may", "--user", "ANNA"},
    {"may", "--user", "BERT", "--json", "--console", "C1"},
    {"diff", "old.csv", "new.csv"},
    {"diff", "old.csv", "new.csv", "--json"},
    {"sheet"},
};

typedef struct text {
    uint8_t *bytes;
    size_t length;
} text;

static uint64_t state;

static uint32_t chance(uint32_t below)
{
    state = state * 6364136223846793005u + 1442695040888963407u;
    return below ? (uint32_t)(state >> 33) % below : 0;
}

static size_t turned(uint8_t *bytes, size_t length, size_t most)
{
    static const char inserted[] = {',', '\n', '"', '*', '%', '.', '\0', 'A'};
    for (uint32_t times = chance(4); times > 0; times--) {
        size_t at = chance((uint32_t)length + 1);
        switch (chance(4)) {
        case 0:
            if (at < length)
                bytes[at] = (uint8_t)chance(256);
            break;
        case 1:
            length = at;
            break;
        case 2:
            if (length < most) {
                memmove(bytes + at + 1, bytes + at, length - at);
                bytes[at] = (uint8_t)inserted[chance(COUNT_OF(inserted))];
                length++;
            }
            break;
        default:
            if (at < length) {
                memmove(bytes + at, bytes + at + 1, length - at - 1);
                length--;
            }
        }
    }
    return length;
}

/* A copy that is exactly as long, so that a checker sees each byte past it. */
static text copy_of(const uint8_t *bytes, size_t length)
{
    text copied = {malloc(length ? length : 1), length};
    if (!copied.bytes)
        exit(3);
    memcpy(copied.bytes, bytes, length);
    return copied;
}

static text policy_by_chance(const uint8_t *policy, size_t length)
{
    static uint8_t turn[POLICY];
    memcpy(turn, policy, length);
    return copy_of(turn, chance(3) ? length : turned(turn, length, sizeof turn));
}

static text question_by_chance(void)
{
    static uint8_t bytes[QUESTION];
    size_t length = 0;
    const char *const *good = GOOD[chance(COUNT_OF(GOOD))];
    for (size_t i = 0; i < WORDS; i++) {
        const char *word = chance(12) ? good[i] : ANY[chance(COUNT_OF(ANY))];
        if (!word && chance(4))
            break;
        if (!word)
            word = ANY[chance(COUNT_OF(ANY))];
        if (i)
            bytes[length++] = 0;
        memcpy(bytes + length, word, strlen(word));
        length += strlen(word);
    }
    return copy_of(bytes, chance(8) ? length : turned(bytes, length, sizeof bytes));
}

/* What a room has is the beginning of the whole answer, and what follows is as it was. */
static int is_kept_to(const uint8_t *room, size_t length, const uint8_t *whole, size_t full)
{
    size_t written = full < length ? full : length;
    if (memcmp(room, whole, written) != 0)
        return 0;
    for (size_t i = written; i < length + GUARD; i++)
        if (room[i] != 0xA5)
            return 0;
    return 1;
}

/* An answer with room for all of it. */
static struct whole {
    uint32_t status;
    opcmds_lengths lengths;
    uint8_t output[WHOLE], errors[WHOLE];
} whole;

static void ask_all(text policy, text other, text question)
{
    whole.status = opcmds_ask(policy.bytes, policy.length, other.bytes, other.length, question.bytes, question.length,
                              whole.output, WHOLE, whole.errors, WHOLE, &whole.lengths);
}

/* Whether the same is answered into little room: by the text, or by what is kept. */
static int is_answered_again(opcmds_kept *by, text policy, text other, text question)
{
    static uint8_t output[ROOM + GUARD], errors[ROOM + GUARD];
    opcmds_lengths again;
    size_t output_room = chance(ROOM), errors_room = chance(ROOM);
    memset(output, 0xA5, sizeof output);
    memset(errors, 0xA5, sizeof errors);
    uint32_t status = by ? opcmds_ask_kept(by, other.bytes, other.length, question.bytes, question.length, output,
                                           output_room, errors, errors_room, &again)
                         : opcmds_ask(policy.bytes, policy.length, other.bytes, other.length, question.bytes,
                                      question.length, output, output_room, errors, errors_room, &again);
    return status == whole.status && again.output == whole.lengths.output && again.errors == whole.lengths.errors
        && is_kept_to(output, output_room, whole.output, again.output)
        && is_kept_to(errors, errors_room, whole.errors, again.errors);
}

static opcmds_kept kept; /* from call to call, so that a policy takes the place of another one */

/* Returns the status, or 4 if something is wrong. */
static uint32_t asked(text policy, text other, text question)
{
    ask_all(policy, other, question);
    int is_good = whole.status < 4 && whole.lengths.output <= WHOLE && whole.lengths.errors <= WHOLE
        && is_answered_again(NULL, policy, other, question) && opcmds_keep(policy.bytes, policy.length, &kept) == 0
        && is_answered_again(&kept, policy, other, question) && is_answered_again(&kept, policy, other, question);
    uint32_t status = whole.status;
    if (chance(2)) {
        opcmds_free(&kept);
        opcmds_free(&kept);
        ask_all((text){policy.bytes, 0}, other, question);
        is_good = is_good && is_answered_again(&kept, policy, other, question);
    }
    return is_good ? status : 4;
}

int main(int argc, char **argv)
{
    static uint8_t policy[POLICY];
    if (argc != 4 && argc != 5)
        return 2;
    FILE *file = fopen(argv[1], "rb");
    if (!file)
        return 2;
    size_t length = fread(policy, 1, sizeof policy / 2, file);
    fclose(file);
    state = strtoull(argv[3], NULL, 10);
    long statuses[5] = {0}, count = atol(argv[2]);
    for (long at = 0; at < count; at++) {
        text one = policy_by_chance(policy, length), other = policy_by_chance(policy, length);
        text question = question_by_chance();
        question.length += argc == 5;
        uint32_t status = asked(one, other, question);
        statuses[status]++;
        if (status == 4)
            fprintf(stderr, "failed: call %ld\n", at);
        free(one.bytes);
        free(other.bytes);
        free(question.bytes);
    }
    opcmds_free(&kept);
    fprintf(stderr, "statuses: %ld done, %ld refused, %ld invalid, %ld failed\n", statuses[0], statuses[1], statuses[2],
            statuses[3]);
    printf("%ld passed, %ld failed\n", count - statuses[4], statuses[4]);
    return statuses[4] != 0;
}
