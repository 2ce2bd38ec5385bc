/* Verifies a proof for a statement: verify STATEMENT PROOF. Writes what is said; the status is the answer. */
#include <stdio.h>
#include <stdlib.h>

#include "voskligan.h"

/* The bytes of a file; NULL where it can't be read. */
static uint8_t *bytes_of(const char *path, size_t *length)
{
    FILE *file = fopen(path, "rb");
    if (file == NULL)
        return NULL;
    uint8_t *bytes = NULL;
    size_t room = 0;
    *length = 0;
    for (;;) {
        if (*length == room) {
            room = 2 * room + 4096;
            uint8_t *more = realloc(bytes, room);
            if (more == NULL)
                break;
            bytes = more;
        }
        size_t count = fread(bytes + *length, 1, room - *length, file);
        if (count == 0) {
            int is_whole = !ferror(file);
            fclose(file);
            if (is_whole)
                return bytes;
            free(bytes);
            return NULL;
        }
        *length += count;
    }
    fclose(file);
    free(bytes);
    return NULL;
}

int main(int count, char **words)
{
    size_t statement_length, proof_length;
    uint8_t message[512];
    if (count != 3) {
        fprintf(stderr, "verify STATEMENT PROOF\n");
        return 2;
    }
    uint8_t *statement = bytes_of(words[1], &statement_length);
    uint8_t *proof = bytes_of(words[2], &proof_length);
    if (statement == NULL || proof == NULL) {
        fprintf(stderr, "a file can't be read\n");
        free(statement);
        free(proof);
        return 2;
    }
    int answer = voskligan_verify(statement, statement_length, proof, proof_length, message, sizeof message);
    fputs((char *)message, stdout);
    free(statement);
    free(proof);
    return answer;
}
