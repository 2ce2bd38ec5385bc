/*
 * Refuses each growth of memory in turn: refusals STATEMENT TRACE. Linked with --wrap=malloc,--wrap=realloc. Each call
 * has to answer what it answers with ample memory, or that memory was wanting. Status 0 where all is as it has to be.
 */
#include <stdio.h>
#include <stdlib.h>
#include <string.h>

#include "voskligan.h"

enum { ROOM = 256 };

void *__real_malloc(size_t size);
void *__real_realloc(void *block, size_t size);

/* How many growths are granted before one is refused; below 0, all are. */
static long granted = -1;

static int is_refused(void)
{
    return granted >= 0 && granted-- == 0;
}

void *__wrap_malloc(size_t size)
{
    return is_refused() ? NULL : __real_malloc(size);
}

void *__wrap_realloc(void *block, size_t size)
{
    return is_refused() ? NULL : __real_realloc(block, size);
}

static uint8_t statement[1 << 16], trace[1 << 16], proof[1 << 18], made[1 << 18];
static size_t statement_length, trace_length, proof_length;

static size_t read_whole(const char *path, uint8_t *bytes, size_t room)
{
    FILE *file = fopen(path, "rb");
    if (file == NULL)
        exit(2);
    size_t length = fread(bytes, 1, room, file);
    fclose(file);
    return length;
}

/* A call by its number, with its message. */
static int answer_of(int call, char *message)
{
    size_t needed;
    if (call == 0)
        return voskligan_verify(statement, statement_length, proof, proof_length, (uint8_t *)message, ROOM);
    if (call == 1)
        return voskligan_check(statement, statement_length, trace, trace_length, (uint8_t *)message, ROOM);
    return voskligan_prove(statement, statement_length, trace, trace_length, made, sizeof made, &needed,
                           (uint8_t *)message, ROOM);
}

int main(int count, char **words)
{
    char message[ROOM], ample[ROOM];
    if (count != 3)
        return 2;
    statement_length = read_whole(words[1], statement, sizeof statement);
    trace_length = read_whole(words[2], trace, sizeof trace);
    if (voskligan_prove(statement, statement_length, trace, trace_length, proof, sizeof proof, &proof_length,
                        (uint8_t *)message, ROOM) != VOSKLIGAN_ACCEPTED)
        return 1;
    long refused = 0;
    for (int call = 0; call < 3; call++) {
        int wanted = answer_of(call, ample);
        for (long k = 0;; k++) {
            granted = k;
            int answer = answer_of(call, message);
            int was_refused = granted < 0;
            granted = -1;
            int is_same = answer == wanted && strcmp(message, ample) == 0;
            int is_wanting = answer == VOSKLIGAN_NOT_JUDGED && strcmp(message, "out of memory\n") == 0;
            if (!is_same && !(was_refused && is_wanting)) {
                fprintf(stderr, "call %d, growth %ld: %d, %s", call, k, answer, message);
                return 1;
            }
            if (!was_refused)
                break;
            refused++;
        }
    }
    printf("%ld growths refused: as they have to be\n", refused);
    return refused == 0;
}
