/* The desk program (docs/RULES.md) in C with the proved library: loads policy.rec, then answers requests from standard input.
 * It is also valid C++. With the archive:  cc -I include examples/c/desk.c target/native/libmishantral.a -o desk
 * or, after tools/install:                 cc examples/c/desk.c $(pkg-config --cflags --libs mishantral) -o desk
 *
 * Exit status: 0 if the load was accepted, 1 if it was refused, 2 if the output could not be written. */
#include "mishantral.h"

#include <inttypes.h>
#include <stdio.h>

#define LONGEST 65536

/* The engine's state: three buffers that only the library reads and writes. */
static uint64_t policy[MISHANTRAL_POLICY_WORDS];
static uint64_t sessions[MISHANTRAL_SESSIONS_WORDS];
static uint64_t orders[MISHANTRAL_ORDERS_WORDS];

/* The policy file's length, or -1 if it is too long or cannot be read. */
static long read_policy(uint8_t bytes[LONGEST + 1])
{
    FILE *file = fopen("policy.rec", "rb");
    if (file == NULL)
        return -1;
    size_t length = fread(bytes, 1, LONGEST + 1, file);
    int failed = ferror(file);
    fclose(file);
    return failed || length > LONGEST ? -1 : (long)length;
}

static uint64_t load(const uint8_t *bytes, size_t length)
{
    return mishantral_load(bytes, length, policy, MISHANTRAL_POLICY_WORDS,
                           sessions, MISHANTRAL_SESSIONS_WORDS, orders, MISHANTRAL_ORDERS_WORDS);
}

static uint64_t request(const uint8_t *record, size_t length)
{
    return mishantral_request(record, length, policy, MISHANTRAL_POLICY_WORDS,
                              sessions, MISHANTRAL_SESSIONS_WORDS, orders, MISHANTRAL_ORDERS_WORDS);
}

int main(void)
{
    static uint8_t bytes[LONGEST + 1];
    long length = read_policy(bytes);
    uint64_t answer = MISHANTRAL_ROOM;
    if (length >= 0)
        answer = load(bytes, (size_t)length);
    printf("load %u %" PRIu64 "\n", mishantral_reply_of(answer), mishantral_place_of(answer));

    int loaded = mishantral_reply_of(answer) == MISHANTRAL_GRANTED;
    uint8_t record[MISHANTRAL_RECORD_BYTES];
    size_t got;
    unsigned long place = 0;
    while (loaded && fflush(stdout) == 0 && (got = fread(record, 1, sizeof record, stdin)) > 0) {
        answer = request(record, got);
        printf("%lu %u %" PRIu64 "\n", ++place, mishantral_reply_of(answer), mishantral_place_of(answer));
    }

    if (fflush(stdout) != 0 || ferror(stdout))
        return 2;
    return loaded ? 0 : 1;
}
