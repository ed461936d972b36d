/* The stack that each exported call uses: the call runs on a stack of its own that is painted, and the deepest byte is sought that was
 * painted over. Built and run by tools/stack against the whole library, and with LOWER against the lower part alone.
 *
 *     stack [POLICY.xml TASKS.txt]      a line a call: its name, its stack in bytes; of a request the deepest kind as well
 *
 * Without the two texts the reader of OPL/XML is left out. */
#include <mishantral.h>
#include <stdio.h>
#include <string.h>
#include <ucontext.h>

#define STACK (64 * 1024)
#define PAINT 0x5a
#define ROUNDS 40
#define REQUESTS 2000

static unsigned char stack[STACK] __attribute__((aligned(64)));
static uint64_t policy[MISHANTRAL_POLICY_WORDS], sessions[MISHANTRAL_SESSIONS_WORDS];
static unsigned char output[16 * MISHANTRAL_MOST_WRITTEN];
static ucontext_t here, there;
static const unsigned char *bytes;
static size_t length, own;
static uint64_t answer;
static void (*call)(void);

#define LOWER_STATE policy, MISHANTRAL_POLICY_WORDS, sessions, MISHANTRAL_SESSIONS_WORDS
#ifdef LOWER
static void nothing(void) {}
static void load(void) { answer = mishantral_lower_load(bytes, length, LOWER_STATE); }
static void request(void) { answer = mishantral_lower_request(bytes, length, LOWER_STATE); }
static void words(void) { answer = mishantral_lower_words(1); }
static void write_out(void) { answer = mishantral_lower_write(output, sizeof output, LOWER_STATE); }
#define NAME(call) "mishantral_lower_" call
#else
static uint64_t orders[MISHANTRAL_ORDERS_WORDS], figures[MISHANTRAL_ANSWER_WORDS];
static unsigned char answers[MISHANTRAL_MOST_PILED];
static struct mishantral_dropped report[257];
#define STATE LOWER_STATE, orders, MISHANTRAL_ORDERS_WORDS
static void nothing(void) {}
static void load(void) { answer = mishantral_load(bytes, length, STATE); }
static void request(void) { answer = mishantral_request(bytes, length, STATE); }
static void settle(void) { answer = mishantral_settle(STATE); }
static void settled_request(void) { answer = mishantral_settled_request(bytes, length, STATE); }
static void pile(void) { answer = mishantral_pile(bytes, length, answers, sizeof answers, 0, STATE); }
static void question(void) { answer = mishantral_question(bytes, length, figures, MISHANTRAL_ANSWER_WORDS, STATE); }
static void words(void) { answer = mishantral_words(1); }
static void write_out(void) { answer = mishantral_write(output, sizeof output, STATE); }
static void mend(void) { answer = mishantral_mend(bytes, length, output, sizeof output, report, 257, STATE); }
#define NAME(call) "mishantral_" call
#endif

static void entry(void) { call(); }

static size_t used_by(void (*function)(void)) {
    memset(stack, PAINT, STACK);
    getcontext(&there);
    there.uc_stack.ss_sp = stack;
    there.uc_stack.ss_size = STACK;
    there.uc_link = &here;
    call = function;
    makecontext(&there, entry, 0);
    swapcontext(&here, &there);
    size_t at = 0;
    while (at < STACK && stack[at] == PAINT) at++;
    return STACK - at;
}

static void deepen(size_t *deepest, void (*function)(void)) {
    size_t n = used_by(function);
    if (n > *deepest) *deepest = n;
}

static void tell(const char *name, size_t deepest) { printf("%s %zu\n", name, deepest - own); }

static uint64_t seed = 20240607;
static unsigned below(unsigned n) {
    seed = seed * 6364136223846793005u + 1442695040888963407u;
    return (unsigned)(seed >> 33) % n;
}

static size_t put(unsigned char *to, unsigned kind, unsigned n, unsigned a, unsigned b, unsigned c, uint64_t m) {
    unsigned fields[] = {a, b, c};
    to[0] = (unsigned char)kind;
    to[1] = (unsigned char)n;
    for (int i = 0; i < 3; i++) to[2 + 2 * i] = (unsigned char)fields[i], to[3 + 2 * i] = (unsigned char)(fields[i] >> 8);
    for (int i = 0; i < 8; i++) to[8 + i] = (unsigned char)(m >> 8 * i);
    return 16;
}

/* A policy with every kind in it: eight clerks, eight roles, one above another, sixteen tasks of four templates, rules of each sort, a wall. */
static size_t some_policy(unsigned char *to) {
    size_t n = 0;
    for (unsigned i = 0; i < 8; i++) n += put(to + n, 1, 0, i, 0, 0, 0), n += put(to + n, 2, 0, i, 0, 0, 0);
    for (unsigned i = 0; i < 8; i++) n += put(to + n, 3, 0, i, i, i, 0), n += put(to + n, 5, 0, i, i, 0, 0);
    for (unsigned i = 0; i < 8; i++) n += put(to + n, 4, 0, i, i, 0, 0), n += put(to + n, 4, 0, i, (i + 1) % 8, 0, 0);
    for (unsigned t = 0; t < 16; t++) n += put(to + n, 6, 0, t, t / 4, 0, 0), n += put(to + n, 7, 0, t, t % 8, 0, 0), n += put(to + n, 8, 0, t, t % 8, 0, 0);
    for (unsigned j = 0; j < 3; j++) {
        n += put(to + n, 9, 2, 0, 0, 0, 7u << j), n += put(to + n, 10, 2, 0, 0, 0, 7u << j);
        n += put(to + n, 11, 2, 0, 0, 0, 7u << 4 * j), n += put(to + n, 12, 0, j, 0, 0, 3u << 4 * j), n += put(to + n, 12, 0, j, 0, 0, 4u << 4 * j);
        n += put(to + n, 13, 0, j, 0, 0, 0), n += put(to + n, 14, 2, 4 * j, 0, 0, 0);
        n += put(to + n, 15, 0, 4 * j, 4 * j + 3, 0, 0), n += put(to + n, 16, 0, 4 * j, 4 * j + 1, 0, 0);
    }
    n += put(to + n, 17, 0, 7, 5, 0, 0);
    for (unsigned i = 0; i < 8; i++) n += put(to + n, 18, 0, 0, i % 2, i, 0);
    return n;
}

static const unsigned kinds[] = {32, 33, 34, 35, 36, 37, 40, 41, 42, 43, 48, 49, 50, 51, 52, 56, 57, 58, 59, 60};

static unsigned some_request(unsigned char *to) {
    unsigned kind = kinds[below(sizeof kinds / sizeof *kinds)];
    uint64_t m = kind == 57 ? below(8) * 65537u : kind == 40 || kind == 32 ? 1u << below(8) : 0;
    int three = (kind >= 50 && kind <= 57) || kind == 59, two = three || (kind >= 34 && kind <= 37) || kind == 40 || kind == 42 || kind == 43 || kind == 48;
    put(to, kind, 0, below(kind == 60 ? 4 : 8), two ? below(kind == 48 ? 4 : 8) : 0, three ? below(16) : 0, m);
    return kind;
}

/* Loads, whole and cut, and random requests after each by this call; the deepest of each kind. */
static int requests_by(void (*ask)(void), const char *name, int loads) {
    static unsigned char text[16 * 256];
    size_t deepest[64] = {0}, deepest_load = 0, worst = 0;
    unsigned which = 0;
    for (unsigned round = 0; round < ROUNDS; round++) {
        bytes = text, length = some_policy(text);
        if (round % 2) length -= 1 + below(40);
        deepen(&deepest_load, load);
        if (round % 2 == 0 && answer != 0) return printf("the policy is refused: %llu\n", (unsigned long long)answer), 1;
        for (unsigned i = 0; i < REQUESTS; i++) {
            unsigned char record[16];
            unsigned kind = some_request(record);
            bytes = record, length = 16;
            deepen(&deepest[kind], ask);
        }
    }
    if (loads) tell(NAME("load"), deepest_load);
    for (unsigned i = 0; i < sizeof kinds / sizeof *kinds; i++)
        if (deepest[kinds[i]] > worst) worst = deepest[kinds[i]], which = kinds[i];
    printf("%s %zu, of kind %u\n", name, worst - own, which);
    return 0;
}

/* The policy that says nothing, the one that says all there is, and some between. */
static int writing(void) {
    size_t deepest = 0;
    for (unsigned round = 0; round < 66; round++) {
        for (size_t i = 0; i < MISHANTRAL_POLICY_WORDS; i++) policy[i] = round == 0 ? 0 : ~UINT64_C(0) >> (round - 1);
        deepen(&deepest, write_out);
        if (answer % 256 != MISHANTRAL_GRANTED) return printf("the policy is not written: %llu\n", (unsigned long long)answer), 1;
    }
    return tell(NAME("write"), deepest), 0;
}

#ifndef LOWER
/* Piles of random requests; questions; links that are sound, and ones of any content. */
static int many_at_once(void) {
    static unsigned char text[16 * 256], records[16 * MISHANTRAL_MOST_PILED];
    size_t deepest_pile = 0, deepest_question = 0, deepest_settle = 0;
    for (unsigned round = 0; round < ROUNDS; round++) {
        bytes = text, length = some_policy(text);
        load();
        for (size_t i = 0; i < sizeof records; i += 16) some_request(records + i);
        bytes = records, length = sizeof records;
        deepen(&deepest_pile, pile);
        if (answer != 0) return printf("the pile is refused: %llu\n", (unsigned long long)answer), 1;
        for (unsigned i = 0; i < 8; i++) {
            unsigned char record[16];
            bytes = record, length = put(record, i < 4 ? 60 : 58, 0, i % 4, 0, 0, 0);
            deepen(&deepest_question, question);
        }
        deepen(&deepest_settle, settle);
        orders[below(MISHANTRAL_ORDERS_WORDS)] += 1 + below(4096);
        deepen(&deepest_settle, settle);
    }
    tell(NAME("settle"), deepest_settle), tell(NAME("pile"), deepest_pile), tell(NAME("question"), deepest_question);
    return 0;
}

/* The policy whole, cut, and with each of its bytes turned. */
static int mending(void) {
    static unsigned char text[16 * 256];
    size_t whole = some_policy(text), deepest = 0;
    bytes = text;
    for (size_t at = 0; at <= whole; at++) {
        length = whole, text[at] ^= 0x55;
        deepen(&deepest, mend);
        text[at] ^= 0x55;
        if (answer % 256 != MISHANTRAL_GRANTED) return printf("the file is not mended: %llu\n", (unsigned long long)answer), 1;
        length = whole - at;
        deepen(&deepest, mend);
    }
    return tell(NAME("mend"), deepest), 0;
}

static unsigned char policy_text[1 << 20], task_lines[1 << 16];
static uint64_t scratch[MISHANTRAL_OPL_WORDS];
static size_t lines;

static void opl(void) { answer = mishantral_opl(bytes, length, task_lines, lines, output, sizeof output, scratch, MISHANTRAL_OPL_WORDS); }
static void opl_all(void) { answer = mishantral_opl_all(bytes, length, task_lines, lines, output, sizeof output, scratch, MISHANTRAL_OPL_WORDS); }

static size_t contents(const char *file, unsigned char *to, size_t room) {
    FILE *from = fopen(file, "rb");
    size_t n = from ? fread(to, 1, room, from) : 0;
    if (from) fclose(from);
    return n;
}

/* The policy whole, cut at each byte, and with each byte struck out. */
static int reading(void (*call)(void), const char *name, const char *policy_file, const char *task_file) {
    size_t whole = contents(policy_file, policy_text, sizeof policy_text), deepest = 0;
    lines = contents(task_file, task_lines, sizeof task_lines);
    bytes = policy_text;
    for (size_t at = 0; at <= whole; at++) {
        unsigned char kept = policy_text[at];
        length = whole - at;
        deepen(&deepest, call);
        if (at == 0 && mishantral_reply_of(answer) != MISHANTRAL_GRANTED) return printf("the policy is refused: %llu\n", (unsigned long long)answer), 1;
        length = whole, policy_text[at] = '?';
        deepen(&deepest, call);
        policy_text[at] = kept;
    }
    return tell(name, deepest), 0;
}
#endif

int main(int count, char **texts) {
    own = used_by(nothing);
    tell(NAME("words"), used_by(words));
    if (requests_by(request, NAME("request"), 1)) return 1;
#ifdef LOWER
    (void)count, (void)texts;
    return writing();
#else
    if (requests_by(settled_request, NAME("settled_request"), 0) || many_at_once() || mending() || writing()) return 1;
    if (count != 3) return 0;
    return reading(opl, NAME("opl"), texts[1], texts[2]) || reading(opl_all, NAME("opl_all"), texts[1], texts[2]);
#endif
}
