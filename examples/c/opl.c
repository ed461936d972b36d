/* Translates a dealer's OPL/XML and its task lines to records with the proved reader: opl POLICY [TASKS] >policy.rec. It is also valid C++.
 * With the archive:  cc -I include examples/c/opl.c target/native/libmishantral.a -o opl
 *
 * Exit status: 0 if the texts were read, 1 if they were refused, with a message that has the place, 2 for wrong usage or a failed read or write. */
#include "mishantral.h"

#include <inttypes.h>
#include <stdio.h>
#include <stdlib.h>

struct text {
    const char *name;
    uint8_t *bytes;
    size_t length;
};

/* Reads a whole file; a failure ends the program. */
static struct text contents(const char *name)
{
    struct text text = {name, NULL, 0};
    size_t room = 0, got;
    FILE *file = fopen(name, "rb");
    do {
        if (text.length == room) {
            uint8_t *more = (uint8_t *)realloc(text.bytes, room = 2 * room + 65536);
            if (!more) file = NULL;
            else text.bytes = more;
        }
        got = file ? fread(text.bytes + text.length, 1, room - text.length, file) : 0;
        text.length += got;
    } while (got > 0);
    if (!file || ferror(file)) {
        fprintf(stderr, "opl: %s: it cannot be read\n", name);
        exit(2);
    }
    fclose(file);
    return text;
}

/* The line and the column of a byte, all counted from 1. */
static void say_where(struct text text, uint64_t byte)
{
    uint64_t line = 1, column = 1, at;
    for (at = 1; at < byte; at++) {
        column++;
        if (text.bytes[at - 1] == '\n') line++, column = 1;
    }
    fprintf(stderr, "opl: %s: line %" PRIu64 ", column %" PRIu64 ": TEXT\n", text.name, line, column);
}

int main(int count, char **words)
{
    struct text policy, tasks = {"no task lines", NULL, 0};
    size_t scratch_words = (size_t)mishantral_words(MISHANTRAL_OPL_SCRATCH), room, bytes;
    uint64_t *scratch = (uint64_t *)malloc(scratch_words * sizeof *scratch), answer;
    uint8_t *output;
    if (count < 2 || count > 3) {
        fputs("usage: opl POLICY [TASKS]\n", stderr);
        return 2;
    }
    policy = contents(words[1]);
    if (count == 3) tasks = contents(words[2]);

    /* An element that yields a record has more than sixteen bytes, and a line has at least four. */
    room = policy.length + 4 * tasks.length + 16;
    output = (uint8_t *)malloc(room);
    if (!scratch || !output) return 2;
    answer = mishantral_opl(policy.bytes, policy.length, tasks.bytes, tasks.length, output, room, scratch, scratch_words);
    if (mishantral_reply_of(answer) == MISHANTRAL_TEXT) {
        say_where(mishantral_opl_text_of(answer) == 1 ? policy : tasks, mishantral_opl_figure_of(answer));
        return 1;
    }
    if (mishantral_reply_of(answer) != MISHANTRAL_GRANTED) {
        fprintf(stderr, "opl: %s: %s\n", policy.name, mishantral_reply_name(mishantral_reply_of(answer)));
        return 1;
    }
    bytes = MISHANTRAL_RECORD_BYTES * (size_t)mishantral_opl_figure_of(answer);
    return fwrite(output, 1, bytes, stdout) == bytes && fflush(stdout) == 0 ? 0 : 2;
}
