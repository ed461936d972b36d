/* The lower part alone, as in a dealer's router: may this clerk open the price book? It is also valid C++.
 * With the archive:                cc -I include examples/c/lower.c target/native/libmishantral_lower.a -o lower
 * or, after tools/install:         cc examples/c/lower.c $(pkg-config --cflags --libs mishantral_lower) -o lower */
#include "mishantral.h"

#include <inttypes.h>
#include <stdio.h>

enum { CLERK = 300, SELLER = 0, PRICE_BOOK = 7, OPEN = 1, SUBJECT = 5 };

/* The state: two buffers that only the library reads and writes. */
static uint64_t policy[MISHANTRAL_POLICY_WORDS];
static uint64_t sessions[MISHANTRAL_SESSIONS_WORDS];

static void ask(const char *words, uint8_t kind, uint16_t a, uint16_t b, uint16_t c, uint64_t m)
{
    uint8_t record[MISHANTRAL_RECORD_BYTES];
    mishantral_record(record, kind, 0, a, b, c, m);
    uint64_t answer = mishantral_lower_request(record, sizeof record, policy, MISHANTRAL_POLICY_WORDS,
                                               sessions, MISHANTRAL_SESSIONS_WORDS);
    printf("%s: %s\n", words, mishantral_reply_name(mishantral_reply_of(answer)));
}

int main(void)
{
    uint8_t records[5][MISHANTRAL_RECORD_BYTES];
    mishantral_record(records[0], MISHANTRAL_USER, 0, CLERK, 0, 0, 0);
    mishantral_record(records[1], MISHANTRAL_ROLE, 0, SELLER, 0, 0, 0);
    mishantral_record(records[2], MISHANTRAL_PERMISSION, 0, 0, OPEN, PRICE_BOOK, 0);
    mishantral_record(records[3], MISHANTRAL_USER_HAS_ROLE, 0, CLERK, SELLER, 0, 0);
    mishantral_record(records[4], MISHANTRAL_ROLE_HAS_PERMISSION, 0, SELLER, 0, 0, 0);

    uint64_t answer = mishantral_lower_load(records[0], sizeof records, policy, MISHANTRAL_POLICY_WORDS,
                                            sessions, MISHANTRAL_SESSIONS_WORDS);
    printf("load: %s, place %" PRIu64 "\n", mishantral_reply_name(mishantral_reply_of(answer)), mishantral_place_of(answer));

    ask("before the clerk has a subject", MISHANTRAL_CHECK, SUBJECT, OPEN, PRICE_BOOK, 0);
    ask("a subject with the seller's role", MISHANTRAL_CREATE_SUBJECT, SUBJECT, CLERK, 0, UINT64_C(1) << SELLER);
    ask("open the price book", MISHANTRAL_CHECK, SUBJECT, OPEN, PRICE_BOOK, 0);
    ask("open another book", MISHANTRAL_CHECK, SUBJECT, OPEN, PRICE_BOOK + 1, 0);
    ask("open an order, which the lower part does not know", MISHANTRAL_OPEN_ORDER, 0, 0, 0, 0);

    return fflush(stdout) == 0 ? 0 : 2;
}
