/* The morning pile in C with the proved library: loads policy.rec, and answers all request records from standard input in piles of up to
 * 4,096. Prints a line for each request, with its place and its reply, then a line for each open order, with its number of entries and the
 * set of its done tasks. It is also valid C++. With the archive:
 *     cc -I include examples/c/pile.c target/native/libmishantral.a -o pile
 *
 * Exit status: 0 if the load was accepted, 1 if it was refused or the last record is truncated, 2 if a read or a write failed. */
#include "mishantral.h"

#include <inttypes.h>
#include <stdio.h>

#define LONGEST 65536
#define PILE_BYTES (MISHANTRAL_MOST_PILED * MISHANTRAL_RECORD_BYTES)

static uint64_t policy[MISHANTRAL_POLICY_WORDS];
static uint64_t sessions[MISHANTRAL_SESSIONS_WORDS];
static uint64_t orders[MISHANTRAL_ORDERS_WORDS];

/* Loads the policy file and returns the answer; ROOM if the file cannot be read or is too long. */
static uint64_t load(void)
{
    static uint8_t bytes[LONGEST + 1];
    FILE *file = fopen("policy.rec", "rb");
    if (file == NULL)
        return MISHANTRAL_ROOM;
    size_t length = fread(bytes, 1, sizeof bytes, file);
    int failed = ferror(file);
    fclose(file);
    if (failed || length > LONGEST)
        return MISHANTRAL_ROOM;
    return mishantral_load(bytes, length, policy, MISHANTRAL_POLICY_WORDS,
                           sessions, MISHANTRAL_SESSIONS_WORDS, orders, MISHANTRAL_ORDERS_WORDS);
}

/* Answers one pile and prints its replies; returns the reply to the pile itself, which is SHAPE if its last record is truncated. */
static unsigned answer_pile(const uint8_t *records, size_t length, unsigned long before)
{
    static uint8_t replies[MISHANTRAL_MOST_PILED];
    size_t count = length / MISHANTRAL_RECORD_BYTES;
    uint64_t answer = mishantral_pile(records, length, replies, sizeof replies, 0,
                                      policy, MISHANTRAL_POLICY_WORDS, sessions, MISHANTRAL_SESSIONS_WORDS,
                                      orders, MISHANTRAL_ORDERS_WORDS);
    if (mishantral_reply_of(answer) == MISHANTRAL_GRANTED)
        for (size_t i = 0; i < count; i++)
            printf("%lu %u\n", before + (unsigned long)i + 1, (unsigned)replies[i]);
    return mishantral_reply_of(answer);
}

/* Prints the figures of each open order. */
static void print_orders(void)
{
    uint8_t record[MISHANTRAL_RECORD_BYTES];
    uint64_t figures[MISHANTRAL_ANSWER_WORDS];
    for (uint16_t order = 0; order <= MISHANTRAL_LAST_ORDER; order++) {
        mishantral_record(record, MISHANTRAL_ENTRIES_OF, 0, order, 0, 0, 0);
        uint64_t answer = mishantral_question(record, sizeof record, figures, MISHANTRAL_ANSWER_WORDS,
                                              policy, MISHANTRAL_POLICY_WORDS, sessions, MISHANTRAL_SESSIONS_WORDS,
                                              orders, MISHANTRAL_ORDERS_WORDS);
        if (mishantral_reply_of(answer) == MISHANTRAL_GRANTED)
            printf("order %u: %" PRIu64 " entries, done 0x%" PRIx64 "\n", (unsigned)order, figures[0], figures[1]);
    }
}

int main(void)
{
    static uint8_t records[PILE_BYTES];
    uint64_t loaded = load();
    if (mishantral_reply_of(loaded) != MISHANTRAL_GRANTED) {
        printf("load %u %" PRIu64 "\n", mishantral_reply_of(loaded), mishantral_place_of(loaded));
        return 1;
    }
    size_t length;
    unsigned long before = 0;
    unsigned reply = MISHANTRAL_GRANTED;
    while (reply == MISHANTRAL_GRANTED && (length = fread(records, 1, sizeof records, stdin)) > 0) {
        reply = answer_pile(records, length, before);
        before += (unsigned long)(length / MISHANTRAL_RECORD_BYTES);
    }
    print_orders();
    if (ferror(stdin) || fflush(stdout) != 0 || ferror(stdout))
        return 2;
    return reply == MISHANTRAL_GRANTED ? 0 : 1;
}
