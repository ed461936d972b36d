/* Mends a damaged policy file in C with the proved library. Standard input is the file, and standard output gets the kept records; with -w
 * these are in the order in which a policy is written out. Standard error gets a line for each dropped record: its place, its reply and the
 * reply's name. It is also valid C++. With the archive:
 *     cc -I include examples/c/mend.c target/native/libmishantral.a -o mend
 *
 * Exit status: 0 if nothing was dropped, 1 if records were, 2 for wrong usage, a file that is too long, or a failed read or write. */
#include "mishantral.h"

#include <inttypes.h>
#include <stdio.h>
#include <string.h>

#define LONGEST (1 << 20)
#define RECORDS (LONGEST / MISHANTRAL_RECORD_BYTES)

static uint64_t policy[MISHANTRAL_POLICY_WORDS];
static uint64_t sessions[MISHANTRAL_SESSIONS_WORDS];
static uint64_t orders[MISHANTRAL_ORDERS_WORDS];

static uint8_t file[LONGEST + 1];
static uint8_t kept[LONGEST];
static struct mishantral_dropped report[RECORDS + 1];
static uint8_t written[MISHANTRAL_MOST_WRITTEN * MISHANTRAL_RECORD_BYTES];

static int put(const uint8_t *bytes, uint64_t records)
{
    size_t length = (size_t)records * MISHANTRAL_RECORD_BYTES;
    return fwrite(bytes, 1, length, stdout) == length && fflush(stdout) == 0;
}

int main(int arguments, char **words)
{
    int in_order = arguments == 2 && strcmp(words[1], "-w") == 0;
    size_t length = fread(file, 1, sizeof file, stdin);
    if (arguments > 1 + in_order || ferror(stdin) || length > LONGEST)
        return 2;
    uint64_t answer = mishantral_mend(file, length, kept, sizeof kept, report, RECORDS + 1,
                                      policy, MISHANTRAL_POLICY_WORDS, sessions, MISHANTRAL_SESSIONS_WORDS,
                                      orders, MISHANTRAL_ORDERS_WORDS);
    uint64_t dropped = mishantral_dropped_of(answer, length);
    for (uint64_t i = 0; i < dropped; i++)
        fprintf(stderr, "record %" PRIu64 ": %" PRIu64 " %s\n", report[i].place, report[i].reply,
                mishantral_reply_name((unsigned)report[i].reply));
    if (!in_order)
        return put(kept, mishantral_written_of(answer)) ? dropped != 0 : 2;
    answer = mishantral_write(written, sizeof written, policy, MISHANTRAL_POLICY_WORDS,
                              sessions, MISHANTRAL_SESSIONS_WORDS, orders, MISHANTRAL_ORDERS_WORDS);
    return put(written, mishantral_written_of(answer)) ? dropped != 0 : 2;
}
