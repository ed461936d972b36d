/* Mishantral: a policy engine for a desk of 1,024 clerks, in which every answer is proved.
 *
 * The library keeps nothing and asks nothing of the system: it works on three buffers of 64-bit words
 * that the caller lends to each call. Every call answers, whatever the bytes and whatever the words, and
 * changes nothing but the three buffers and what it is lent for its answer. A request that is refused changes no word of them.
 *
 *     size_t words = mishantral_words(MISHANTRAL_POLICY);   likewise MISHANTRAL_SESSIONS, MISHANTRAL_ORDERS
 *     uint64_t *policy = calloc(words, sizeof *policy);     likewise sessions, orders
 *     uint64_t answer = mishantral_load(bytes, length, policy, words, sessions, .., orders, ..);
 *     if (mishantral_reply_of(answer) != MISHANTRAL_GRANTED)   refused at record mishantral_place_of(answer)
 *
 * Of a claim that a rule refuses, mishantral_place_of(answer) is the rule's place: see mishantral_request.
 *
 * What is decided, and which reply is given when, is docs/RULES.md of the project: its section "Numbers" has
 * the records and kinds, "The replies" the replies, "The ledger and the claim rules" the rules of a claim.
 *
 * Link with libmishantral.a. Of what is outside it, it calls memset alone.
 */
#ifndef MISHANTRAL_H
#define MISHANTRAL_H

#include <stddef.h>
#include <stdint.h>

#ifdef __cplusplus
extern "C" {
#endif

/* This header's version; the project's CHANGELOG.md says what changed with each. */
#define MISHANTRAL_VERSION "0.2.0"
#define MISHANTRAL_VERSION_MAJOR 0
#define MISHANTRAL_VERSION_MINOR 2
#define MISHANTRAL_VERSION_PATCH 0

/* How many 64-bit words each buffer has, where a constant is wanted: uint64_t policy[MISHANTRAL_POLICY_WORDS]. The
 * library that is linked tells its own by mishantral_words; with another length than that it answers ROOM. */
#define MISHANTRAL_POLICY_WORDS 5145
#define MISHANTRAL_SESSIONS_WORDS 2432
#define MISHANTRAL_ORDERS_WORDS 2244
#define MISHANTRAL_OPL_WORDS 921784

/* How many words the answer to a question has: mishantral_question takes no other length. */
#define MISHANTRAL_ANSWER_WORDS 66

/* The last number of each thing: users are 0 to MISHANTRAL_LAST_USER, and so on. */
#define MISHANTRAL_LAST_USER 1023
#define MISHANTRAL_LAST_ROLE 63
#define MISHANTRAL_LAST_PERMISSION 255
#define MISHANTRAL_LAST_TASK 63
#define MISHANTRAL_LAST_TEMPLATE 15
#define MISHANTRAL_LAST_PARTITIONING 15
#define MISHANTRAL_LAST_WALL 15
#define MISHANTRAL_LAST_BLOCK 15
#define MISHANTRAL_LAST_SUBJECT 127
#define MISHANTRAL_LAST_ORDER 63

/* How many there may be: rules of a policy, entries of all orders together, bytes of a record, records of a pile, records that
 * mishantral_write writes of any state. */
#define MISHANTRAL_MOST_STATIC_SETS 32
#define MISHANTRAL_MOST_DYNAMIC_SETS 32
#define MISHANTRAL_MOST_TASK_SETS 32
#define MISHANTRAL_MOST_BLOCKS 64
#define MISHANTRAL_MOST_BINDINGS 64
#define MISHANTRAL_MOST_PREREQUISITES 64
#define MISHANTRAL_MOST_SENIORITIES 64
#define MISHANTRAL_MOST_WALLED 256
#define MISHANTRAL_MOST_ENTRIES 2048
#define MISHANTRAL_RECORD_BYTES 16
#define MISHANTRAL_MOST_PILED 4096
#define MISHANTRAL_MOST_WRITTEN 108528

/* The three buffers, the answer to a question, and the scratch of mishantral_opl and mishantral_opl_all. */
enum mishantral_group {
    MISHANTRAL_POLICY = 0,   /* users, roles, permissions, tasks, rules */
    MISHANTRAL_SESSIONS = 1, /* subjects and their active roles; the blocks that users are bound to */
    MISHANTRAL_ORDERS = 2,   /* open orders and their entries */
    MISHANTRAL_ANSWER = 3,
    MISHANTRAL_OPL_SCRATCH = 4
};

/* How many 64-bit words a buffer of this group has: the only length that the calls below take for it. 0 for another group. */
uint64_t mishantral_words(uint64_t group);

/* Loads a policy: `length` bytes, sixteen a record. The engine is emptied first, and a refused load leaves it
 * empty, with the place of the refused record, counted from 1. Accepted: place 0.
 *
 * The answer is the reply + 256 times the place. It is ROOM, with place 0, and nothing is written, where a
 * buffer has not its fixed length. The buffers may hold anything before a load.
 *
 * `bytes` points to `length` readable bytes, `policy` to `policy_words` words that may be read and written,
 * and so on. The four do not overlap. A pointer may be null where its length is 0. No other thread uses
 * the buffers during the call. */
uint64_t mishantral_load(const uint8_t *bytes, size_t length,
                         uint64_t *policy, size_t policy_words,
                         uint64_t *sessions, size_t sessions_words,
                         uint64_t *orders, size_t orders_words);

/* Answers one request: a record of sixteen bytes; any other length is answered with SHAPE.
 *
 * The answer is the reply + 256 times a place. With BEFORE, SEPARATION and BOUND the place is that of the first rule that
 * the claim would break, counted from 1 among all records of its kind in the loaded policy, in their order: of kind 16, 11 or
 * 15. With BLOCK it is that of the block at which the search ends, among all records of kind 12. With every other reply it
 * is 0. mishantral_rule_kind tells the kind of a reply's rules.
 *
 * ROOM as above. The buffers are those of an accepted load, or of any content: each content reads as some state. */
uint64_t mishantral_request(const uint8_t *record, size_t length,
                            uint64_t *policy, size_t policy_words,
                            uint64_t *sessions, size_t sessions_words,
                            uint64_t *orders, size_t orders_words);

/* For callers who keep the buffers to themselves: mishantral_request looks through the links of the orders buffer at each call, since it takes
 * any content; these two look once. mishantral_settle makes a state whose links are broken, which reads as the empty engine, one of zeros,
 * and leaves every other as it is; its answer is the reply, GRANTED, or ROOM where a buffer has not its fixed length and nothing is written.
 *
 * mishantral_settled_request answers as mishantral_request does, for a state that mishantral_settle has granted or mishantral_load was not
 * answered with ROOM for, and that nothing but the calls of this library has written to since. With any other content its answer is some
 * reply of the table: it stays within the buffers, and a refusal changes no word, but what it grants may leave any content. */
uint64_t mishantral_settle(uint64_t *policy, size_t policy_words,
                           uint64_t *sessions, size_t sessions_words,
                           uint64_t *orders, size_t orders_words);

uint64_t mishantral_settled_request(const uint8_t *record, size_t length,
                                    uint64_t *policy, size_t policy_words,
                                    uint64_t *sessions, size_t sessions_words,
                                    uint64_t *orders, size_t orders_words);

/* Answers a pile of requests in one call: `length` bytes, sixteen a record, at most MISHANTRAL_MOST_PILED records. They are made one
 * after the other, and a refused one does not end the pile. The reply to each is one byte of `answers`, from the place `at` on, counted from
 * 0; the other bytes of `answers` stay. The replies, and the tables that the state reads as afterwards, are those of mishantral_request for each
 * record; an entry may stand in another slot of the ledger. Where no request is granted no word of the state changes.
 *
 * The answer is the reply to the pile alone: GRANTED; or, before any request is done and with nothing written, ROOM where a state buffer has
 * not its fixed length, `at` lies past the end of `answers`, there is not a byte for each whole record from there on, or there are more than
 * MISHANTRAL_MOST_PILED whole records; then SHAPE where `length` is no multiple of 16. A pile without records is granted.
 *
 * `answers` points to `answers_length` bytes that may be read and written, and overlaps none of the others. */
uint64_t mishantral_pile(const uint8_t *records, size_t length,
                         uint8_t *answers, size_t answers_length, uint64_t at,
                         uint64_t *policy, size_t policy_words,
                         uint64_t *sessions, size_t sessions_words,
                         uint64_t *orders, size_t orders_words);

/* Answers a question with its figures, where mishantral_request answers its reply alone. They are written to `answer`, MISHANTRAL_ANSWER_WORDS
 * words, where the reply is GRANTED, and words that the question does not use become 0:
 *
 *     MISHANTRAL_ENTRIES_OF    answer[0] the number of the order's entries, held and done ones; answer[1] the set of its tasks that are done
 *     MISHANTRAL_STUCK_TASKS   answer[0] the set of the template's tasks that can never be claimed because of prerequisites; answer[1] how many
 *                              the others are; from answer[2] on those, in an order in which they can be claimed, the lowest numbers first
 *
 * The answer is the reply: ROOM where a state buffer or `answer` has not its length; then SHAPE for a record that is no question; then what
 * mishantral_request answers. With a refusal no word is written. The state is read, whatever it holds, and not changed.
 *
 * `answer` points to `answer_words` words that may be written, and overlaps none of the others. */
uint64_t mishantral_question(const uint8_t *record, size_t length,
                             uint64_t *answer, size_t answer_words,
                             const uint64_t *policy, size_t policy_words,
                             const uint64_t *sessions, size_t sessions_words,
                             const uint64_t *orders, size_t orders_words);

/* Writes the policy out as it is now, after all requests since the load, as records of sixteen bytes to the front of `output`, for
 * mishantral_load to take: kinds rising, within kinds 1 to 8, 13, 14 and 17 rising by a and then b, the rules of the other kinds in the order of
 * the policy. Loading them is accepted and gives the same policy, without sessions and orders; the same policy always gives the same bytes.
 *
 * The answer is the reply + 256 times the number of records. It is ROOM, with number 0, and nothing is written, where a state buffer has not
 * its fixed length or the records do not fit the output; 16 times MISHANTRAL_MOST_WRITTEN bytes are always enough. Bytes behind the last record
 * stay. The state is read, whatever it holds, and not changed.
 *
 * `output` points to `output_length` bytes that may be read and written, and overlaps none of the others. */
uint64_t mishantral_write(uint8_t *output, size_t output_length,
                          const uint64_t *policy, size_t policy_words,
                          const uint64_t *sessions, size_t sessions_words,
                          const uint64_t *orders, size_t orders_words);

/* An entry of a report: a record that was dropped, by its place in the file, counted from 1, and the reply that refuses it. */
struct mishantral_dropped {
    uint64_t place;
    uint64_t reply;
};

/* Mends a damaged policy file: `length` bytes, sixteen a record. Each record that a load would accept after those kept before it is kept, and the
 * rest is dropped. The kept ones are written to the front of `output`, and for each dropped one an entry to `report`, both in the order of
 * the file; an incomplete last record is dropped with SHAPE. What is written always loads; a file that loads comes out the same, with nothing
 * dropped. The state may hold anything before, and holds the kept policy afterwards, without sessions and orders.
 *
 * The answer is the reply + 256 times the number of records kept; mishantral_dropped_of tells how many entries the report has. It is ROOM, with
 * number 0, and nothing is written, where a state buffer has not its fixed length, the output is shorter than the file, or the report has fewer
 * entries than length / 16 + 1. Bytes and entries behind the last one written stay.
 *
 * `output` points to `output_length` bytes and `report` to `report_entries` entries that may be read and written; none of them overlaps another. */
uint64_t mishantral_mend(const uint8_t *bytes, size_t length,
                         uint8_t *output, size_t output_length,
                         struct mishantral_dropped *report, size_t report_entries,
                         uint64_t *policy, size_t policy_words,
                         uint64_t *sessions, size_t sessions_words,
                         uint64_t *orders, size_t orders_words);

/* Reads a dealer's OPL/XML with its task lines, and writes the policy's records, sixteen bytes each, to the front of `output`,
 * for mishantral_load to take. A task line is a task's name, one space and its template's name; it ends with a line feed, with
 * a carriage return and a line feed, or, the last, with nothing. Either text may begin with a byte order mark, which is skipped.
 *
 * The answer is the reply + 256 times (the text + 4 times a figure), by the first of these that applies:
 *
 *     TEXT      a text is not in its grammar: the text is 1, the policy's, or 2, the task lines'; the figure is the
 *               place of the byte, counted from 1, behind the last one where the text ends too early
 *     ROOM      the scratch has not its fixed length
 *     NAMES     a name is too long, declared nowhere or above a limit
 *     ROOM      the records do not fit the output
 *     GRANTED   the figure is the number of records
 *
 * Text and figure are 0 where nothing is said of them. A refusal writes nothing to the output, and bytes behind the last
 * record stay. The scratch may hold anything before, and what it holds afterwards means nothing. Pointers are as above. */
uint64_t mishantral_opl(const uint8_t *policy_text, size_t policy_bytes,
                        const uint8_t *task_lines, size_t task_bytes,
                        uint8_t *output, size_t output_bytes,
                        uint64_t *scratch, size_t scratch_words);

/* The same of a policy text with all sections that the engine can hold. Beside those that mishantral_opl reads:
 *
 *     6.2   module_role_hierarchy_policy   an inherit_role is a record of kind 17: upper_role above lower_role
 *     6.4   module_sep_duty_rh_policy      as 6.3's module: kinds 9 and 10
 *     6.6   module_chinese_wall_policy     a wall; each cw_partition is a block of it, and a partition_object a record of kind 18
 *
 * Walls are numbered in the order of the text, blocks in their order in the wall; a 17th of either is NAMES, empty or not. An object
 * is declared where it stands in a block, as in a permission. A uocw, which says who has touched what, is no policy and is TEXT:
 * bindings come by commits. A policy text that mishantral_opl accepts is answered alike. */
uint64_t mishantral_opl_all(const uint8_t *policy_text, size_t policy_bytes,
                            const uint8_t *task_lines, size_t task_bytes,
                            uint8_t *output, size_t output_bytes,
                            uint64_t *scratch, size_t scratch_words);

/* The lower part alone, for dealers: policy, roles and sessions, without orders. It is a library of its own,
 * libmishantral_lower.a, with these four functions and two buffers, of MISHANTRAL_POLICY_WORDS and
 * MISHANTRAL_SESSIONS_WORDS words. They answer as those above do; kinds 48 to 52, 57, 58 and 60 are no kinds
 * of the lower part, and are answered with SHAPE. */
uint64_t mishantral_lower_words(uint64_t group);

uint64_t mishantral_lower_load(const uint8_t *bytes, size_t length,
                               uint64_t *policy, size_t policy_words,
                               uint64_t *sessions, size_t sessions_words);

uint64_t mishantral_lower_request(const uint8_t *record, size_t length,
                                  uint64_t *policy, size_t policy_words,
                                  uint64_t *sessions, size_t sessions_words);

uint64_t mishantral_lower_write(uint8_t *output, size_t output_length,
                                const uint64_t *policy, size_t policy_words,
                                const uint64_t *sessions, size_t sessions_words);

/* Replies (docs/RULES.md, "The replies"). Checks run in the order of these numbers, LOOP behind RULE and WALL
 * behind DENIED, and the first that applies is given. */
enum mishantral_reply {
    MISHANTRAL_GRANTED = 0,      /* accepted, or granted */
    MISHANTRAL_ROOM = 1,         /* a lent buffer has not its fixed length, or an output is too short; nothing is written */
    MISHANTRAL_SHAPE = 2,        /* not 16 bytes, kind not of this call, unused field not zero, m of kind 57 too large */
    MISHANTRAL_RANGE = 3,        /* a number above its limit */
    MISHANTRAL_UNKNOWN = 4,      /* something named is not declared, not open or not live; a pair to take back is absent */
    MISHANTRAL_TAKEN = 5,        /* declared, assigned, active, live, open or held already; a repeated policy record */
    MISHANTRAL_IN_USE = 6,       /* the user, role, subject or order is still in use */
    MISHANTRAL_RULE = 7,         /* a rule record is ill made */
    MISHANTRAL_NOT_ASSIGNED = 8, /* a role to activate is not the user's */
    MISHANTRAL_STATIC = 9,       /* a static set would be broken */
    MISHANTRAL_DYNAMIC = 10,     /* a dynamic set would be broken */
    MISHANTRAL_NO_ROLE = 11,     /* no active role of the subject opens the task */
    MISHANTRAL_NOT_YOURS = 12,   /* the subject does not hold the task */
    MISHANTRAL_DENIED = 13,      /* no active role has the permission, or the task does not carry it */
    MISHANTRAL_BEFORE = 14,      /* a task required before this one is not done in the order */
    MISHANTRAL_SEPARATION = 15,  /* the user has n or more other tasks of a task set */
    MISHANTRAL_BLOCK = 16,       /* the user has a task of another block of a partitioning */
    MISHANTRAL_ALONE = 17,       /* the user has every other task of a template banned for lone workers */
    MISHANTRAL_BOUND = 18,       /* a task bound with this one has an entry of another user */
    MISHANTRAL_COUNT = 19,       /* the task has as many entries as its limit allows */
    MISHANTRAL_FULL = 20,        /* no ledger entry is free, or the rule limit of that kind is reached */
    MISHANTRAL_TEXT = 21,        /* mishantral_opl: a text is not in its grammar */
    MISHANTRAL_NAMES = 22,       /* mishantral_opl: a name is too long, declared nowhere or above a limit */
    MISHANTRAL_LOOP = 23,        /* the role that is to stand below stands above already */
    MISHANTRAL_WALL = 24         /* the user is bound in some wall to another block than the object's */
};

/* Kinds of record (docs/RULES.md, "Numbers"). A field that is not listed is zero; bit i of m stands for role or
 * task i. */
enum mishantral_kind {
    /* For a load. */
    MISHANTRAL_USER = 1,                /* user a (to 1,023) */
    MISHANTRAL_ROLE = 2,                /* role a (to 63) */
    MISHANTRAL_PERMISSION = 3,          /* permission a (to 255) = operation b on object c */
    MISHANTRAL_USER_HAS_ROLE = 4,       /* user a has role b */
    MISHANTRAL_ROLE_HAS_PERMISSION = 5, /* role a has permission b */
    MISHANTRAL_TASK = 6,                /* task a (to 63) of template b (to 15) */
    MISHANTRAL_TASK_OPEN_TO = 7,        /* task a open to role b */
    MISHANTRAL_TASK_CARRIES = 8,        /* task a carries permission b */
    MISHANTRAL_STATIC_SET = 9,          /* static set, n, roles m */
    MISHANTRAL_DYNAMIC_SET = 10,        /* dynamic set, n, roles m */
    MISHANTRAL_TASK_SET = 11,           /* task set, n, tasks m */
    MISHANTRAL_BLOCK_OF = 12,           /* block of partitioning a (to 15), tasks m */
    MISHANTRAL_LONE_WORKER_BAN = 13,    /* lone-worker ban on template a */
    MISHANTRAL_AT_MOST = 14,            /* task a at most n times */
    MISHANTRAL_BOUND_TO = 15,           /* task a bound to task b */
    MISHANTRAL_BEFORE_TASK = 16,        /* task a before task b */
    MISHANTRAL_ROLE_ABOVE = 17,         /* role a stands above role b, and counts with it and all below it */
    MISHANTRAL_WALLED = 18,             /* wall a (to 15), block b (to 15), object c */
    /* Requests. */
    MISHANTRAL_ADD_USER = 32,        /* add user a with roles m, all of it or nothing */
    MISHANTRAL_DELETE_USER = 33,
    MISHANTRAL_ASSIGN_ROLE = 34,     /* assign role b to user a */
    MISHANTRAL_TAKE_ROLE = 35,       /* take role b from user a */
    MISHANTRAL_GIVE_PERMISSION = 36, /* give role a permission b */
    MISHANTRAL_TAKE_PERMISSION = 37, /* take permission b from role a */
    MISHANTRAL_CREATE_SUBJECT = 40,  /* create subject a (to 127) for user b with active roles m */
    MISHANTRAL_DESTROY_SUBJECT = 41,
    MISHANTRAL_ACTIVATE_ROLE = 42,   /* activate role b in subject a */
    MISHANTRAL_DEACTIVATE_ROLE = 43, /* deactivate role b in subject a */
    MISHANTRAL_OPEN_ORDER = 48,      /* open order a (to 63) of template b */
    MISHANTRAL_END_ORDER = 49,
    MISHANTRAL_CLAIM = 50,           /* subject a, order b, task c */
    MISHANTRAL_RELEASE = 51,         /* subject a, order b, task c */
    MISHANTRAL_DONE = 52,            /* subject a, order b, task c */
    MISHANTRAL_CHECK = 56,           /* subject a, operation b, object c */
    MISHANTRAL_TASK_CHECK = 57,      /* subject a, order b, task c, m = operation + 65,536 x object */
    MISHANTRAL_ENTRIES_OF = 58,      /* order a: how many entries, which tasks done; see mishantral_question */
    MISHANTRAL_COMMIT = 59,          /* as 56; where granted, the user is bound to the object's block in every wall that has it */
    MISHANTRAL_STUCK_TASKS = 60      /* template a: which tasks can never be claimed because of prerequisites; likewise */
};

/* The reply of an answer. */
static inline unsigned mishantral_reply_of(uint64_t answer) { return (unsigned)(answer % 256); }

/* The place of an answer: of a load, that of the refused record; of a request, that of the rule that it is about; from 1, or 0. */
static inline uint64_t mishantral_place_of(uint64_t answer) { return answer / 256; }

/* The number of an answer of mishantral_write or mishantral_mend: of records that were written. */
static inline uint64_t mishantral_written_of(uint64_t answer) { return answer / 256; }

/* How many entries mishantral_mend has written to the report, by its answer and the length of the file: the records that were not kept. */
static inline uint64_t mishantral_dropped_of(uint64_t answer, size_t length)
{
    if (mishantral_reply_of(answer) != MISHANTRAL_GRANTED)
        return 0;
    return length / 16 + (length % 16 != 0) - mishantral_written_of(answer);
}

/* The policy kind of the rules among which the place of a request's answer counts; 0 where the reply says no place. */
static inline unsigned mishantral_rule_kind(unsigned reply)
{
    switch (reply) {
    case MISHANTRAL_BEFORE: return MISHANTRAL_BEFORE_TASK;
    case MISHANTRAL_SEPARATION: return MISHANTRAL_TASK_SET;
    case MISHANTRAL_BLOCK: return MISHANTRAL_BLOCK_OF;
    case MISHANTRAL_BOUND: return MISHANTRAL_BOUND_TO;
    default: return 0;
    }
}

/* The text and the figure of an answer of mishantral_opl or mishantral_opl_all. */
static inline unsigned mishantral_opl_text_of(uint64_t answer) { return (unsigned)(answer / 256 % 4); }
static inline uint64_t mishantral_opl_figure_of(uint64_t answer) { return answer / 1024; }

/* A reply's name, as "IN USE"; "?" for a number that is no reply. */
static inline const char *mishantral_reply_name(unsigned reply)
{
    switch (reply) {
    case MISHANTRAL_GRANTED: return "GRANTED";
    case MISHANTRAL_ROOM: return "ROOM";
    case MISHANTRAL_SHAPE: return "SHAPE";
    case MISHANTRAL_RANGE: return "RANGE";
    case MISHANTRAL_UNKNOWN: return "UNKNOWN";
    case MISHANTRAL_TAKEN: return "TAKEN";
    case MISHANTRAL_IN_USE: return "IN USE";
    case MISHANTRAL_RULE: return "RULE";
    case MISHANTRAL_NOT_ASSIGNED: return "NOT ASSIGNED";
    case MISHANTRAL_STATIC: return "STATIC";
    case MISHANTRAL_DYNAMIC: return "DYNAMIC";
    case MISHANTRAL_NO_ROLE: return "NO ROLE";
    case MISHANTRAL_NOT_YOURS: return "NOT YOURS";
    case MISHANTRAL_DENIED: return "DENIED";
    case MISHANTRAL_BEFORE: return "BEFORE";
    case MISHANTRAL_SEPARATION: return "SEPARATION";
    case MISHANTRAL_BLOCK: return "BLOCK";
    case MISHANTRAL_ALONE: return "ALONE";
    case MISHANTRAL_BOUND: return "BOUND";
    case MISHANTRAL_COUNT: return "COUNT";
    case MISHANTRAL_FULL: return "FULL";
    case MISHANTRAL_TEXT: return "TEXT";
    case MISHANTRAL_NAMES: return "NAMES";
    case MISHANTRAL_LOOP: return "LOOP";
    case MISHANTRAL_WALL: return "WALL";
    default: return "?";
    }
}

/* Writes a record's sixteen bytes: kind, n, a, b, c, m, little-endian on every processor. */
static inline void mishantral_record(uint8_t record[16], uint8_t kind, uint8_t n,
                                     uint16_t a, uint16_t b, uint16_t c, uint64_t m)
{
    int i;
    record[0] = kind;
    record[1] = n;
    for (i = 0; i < 2; i++) {
        record[2 + i] = (uint8_t)(a >> 8 * i);
        record[4 + i] = (uint8_t)(b >> 8 * i);
        record[6 + i] = (uint8_t)(c >> 8 * i);
    }
    for (i = 0; i < 8; i++)
        record[8 + i] = (uint8_t)(m >> 8 * i);
}

#ifdef __cplusplus
}
#endif

#endif
