/* Proves a trace for a statement: prove STATEMENT TRACE. Writes the proof to standard output, else what is said. */
#include <stdio.h>
#include <stdlib.h>

#include "voskligan.h"

static uint8_t statement[1 << 20], trace[1 << 22];

/* Fills a buffer with the bytes of a file; 0 where they are more than it holds, or can't be read. */
static int has_read(const char *path, uint8_t *bytes, size_t room, size_t *length)
{
    FILE *file = fopen(path, "rb");
    if (file == NULL)
        return 0;
    *length = fread(bytes, 1, room, file);
    int is_whole = !ferror(file) && *length < room;
    fclose(file);
    return is_whole;
}

int main(int count, char **words)
{
    size_t statement_length, trace_length, needed;
    uint8_t message[512];
    if (count != 3 || !has_read(words[1], statement, sizeof statement, &statement_length)
        || !has_read(words[2], trace, sizeof trace, &trace_length)) {
        fprintf(stderr, "prove STATEMENT TRACE\n");
        return 2;
    }
    /* The first call says how long the proof is, the second makes it again. */
    int answer = voskligan_prove(statement, statement_length, trace, trace_length, NULL, 0, &needed, message,
                                 sizeof message);
    if (answer == VOSKLIGAN_NO_ROOM) {
        size_t room = needed;
        uint8_t *proof = malloc(room);
        if (proof == NULL)
            return 2;
        answer = voskligan_prove(statement, statement_length, trace, trace_length, proof, room, &needed, message,
                                 sizeof message);
        if (answer == VOSKLIGAN_ACCEPTED)
            fwrite(proof, 1, needed, stdout);
        free(proof);
    }
    if (answer != VOSKLIGAN_ACCEPTED)
        fputs((char *)message, stderr);
    return answer;
}
