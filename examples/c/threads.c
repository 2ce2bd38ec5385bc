/*
 * Tries the library: threads STATEMENT TRACE FALSE_TRACE. Eight threads, each on a stack of 192 KB, verify 1,000 proofs,
 * every third of them spoiled, and each compares what it is told with what one thread was told before; then, on such a
 * stack, lengths and rooms that a caller may get wrong, what a call leaves as it was, texts that nest deep, and an AIR
 * of 100,000 nodes in a chain. Status 0 where all is as it has to be.
 */
#include <pthread.h>
#include <stdio.h>
#include <stdlib.h>
#include <string.h>

#include "voskligan.h"

enum { THREADS = 8, PROOFS = 1000, SPOILED = 97, STACK = 192 * 1024, ROOM = 256 };

/* Ends the program where something isn't as it has to be. */
#define HAS(fact) \
    do { \
        if (!(fact)) { \
            fprintf(stderr, "line %d: not so: %s\n", __LINE__, #fact); \
            exit(1); \
        } \
    } while (0)

static uint8_t statement[1 << 16], trace[1 << 16], false_trace[1 << 16];
static size_t statement_length, trace_length, false_length, proof_length;
static uint8_t *proof;

/* What one thread was told of the proof, and of it with another digit at a place. */
static int answers[SPOILED + 1];
static char messages[SPOILED + 1][ROOM];

static size_t read_whole(const char *path, uint8_t *bytes, size_t room)
{
    FILE *file = fopen(path, "rb");
    HAS(file != NULL);
    size_t length = fread(bytes, 1, room, file);
    HAS(length < room && !ferror(file));
    fclose(file);
    return length;
}

/* A thread on a small stack. */
static pthread_t start(void *(*body)(void *), void *argument)
{
    pthread_t thread;
    pthread_attr_t attributes;
    HAS(pthread_attr_init(&attributes) == 0);
    HAS(pthread_attr_setstacksize(&attributes, STACK) == 0);
    HAS(pthread_create(&thread, &attributes, body, argument) == 0);
    pthread_attr_destroy(&attributes);
    return thread;
}

/* The proof, whole for the number SPOILED; below it with another digit at the next place that has one. */
static void make_copy(uint8_t *copy, int number)
{
    memcpy(copy, proof, proof_length);
    if (number == SPOILED)
        return;
    size_t place = proof_length * (size_t)number / SPOILED;
    while (copy[place] < '0' || copy[place] > '9')
        place = (place + 1) % proof_length;
    copy[place] ^= 1;
}

static int verify_copy(uint8_t *copy, int number, char *message)
{
    make_copy(copy, number);
    return voskligan_verify(statement, statement_length, copy, proof_length, (uint8_t *)message, ROOM);
}

static void *verify_some(void *argument)
{
    uint8_t *copy = malloc(proof_length);
    char message[ROOM];
    HAS(copy != NULL);
    for (int k = (int)(intptr_t)argument; k < PROOFS; k += THREADS) {
        int number = k % 3 == 0 ? k / 3 % SPOILED : SPOILED;
        HAS(verify_copy(copy, number, message) == answers[number]);
        HAS(strcmp(message, messages[number]) == 0);
    }
    free(copy);
    return NULL;
}

/* One thread first, then eight at once. */
static void try_threads(void)
{
    pthread_t threads[THREADS];
    uint8_t *copy = malloc(proof_length);
    int spoiled = 0;
    HAS(copy != NULL);
    for (int number = 0; number <= SPOILED; number++) {
        answers[number] = verify_copy(copy, number, messages[number]);
        spoiled += answers[number] != VOSKLIGAN_ACCEPTED;
    }
    free(copy);
    HAS(answers[SPOILED] == VOSKLIGAN_ACCEPTED);
    HAS(strcmp(messages[SPOILED], "accepted\n") == 0);
    /* No digit of a proof can be another. */
    HAS(spoiled == SPOILED);
    for (intptr_t k = 0; k < THREADS; k++)
        threads[k] = start(verify_some, (void *)k);
    for (int k = 0; k < THREADS; k++)
        HAS(pthread_join(threads[k], NULL) == 0);
}

/* Proofs that are cut, of no bytes, and of none at no place. */
static void try_lengths(void)
{
    uint8_t message[ROOM];
    for (size_t length = 0; length < proof_length; length += 7)
        HAS(voskligan_verify(statement, statement_length, proof, length, message, ROOM) != VOSKLIGAN_ACCEPTED
            || length == proof_length - 1);
    HAS(voskligan_verify(statement, statement_length, NULL, 0, message, ROOM) == VOSKLIGAN_NOT_JUDGED);
    HAS(strncmp((char *)message, "bad input\n", 10) == 0);
    HAS(voskligan_verify(NULL, 0, proof, proof_length, message, ROOM) == VOSKLIGAN_NOT_JUDGED);
    HAS(voskligan_verify(NULL, 0, NULL, 0, NULL, 0) == VOSKLIGAN_NOT_JUDGED);
    HAS(voskligan_check(NULL, 0, NULL, 0, NULL, 0) == VOSKLIGAN_NOT_JUDGED);
    HAS(voskligan_verify(statement, statement_length, proof, proof_length, NULL, 0) == VOSKLIGAN_ACCEPTED);
}

/* A floor that the proof is worth, and one that no proof is. */
static void try_floors(void)
{
    uint8_t message[ROOM];
    HAS(voskligan_verify_at_least(1, statement, statement_length, proof, proof_length, message, ROOM)
        == VOSKLIGAN_ACCEPTED);
    HAS(strcmp((char *)message, "accepted\n") == 0);
    HAS(voskligan_verify_at_least(1000, statement, statement_length, proof, proof_length, message, ROOM)
        == VOSKLIGAN_BELOW_FLOOR);
    HAS(strncmp((char *)message, "not judged: worth ", 18) == 0);
}

/* A message of each room: what fits, a 0 byte, and behind it what was there. */
static void try_rooms(void)
{
    const char *told = "accepted\n";
    for (size_t room = 0; room < 20; room++) {
        uint8_t message[20];
        memset(message, 7, sizeof message);
        HAS(voskligan_verify(statement, statement_length, proof, proof_length, message, room) == VOSKLIGAN_ACCEPTED);
        size_t fits = room == 0 ? 0 : room - 1 < strlen(told) ? room - 1 : strlen(told);
        HAS(memcmp(message, told, fits) == 0);
        HAS(room == 0 || message[fits] == 0);
        for (size_t k = room == 0 ? 0 : fits + 1; k < sizeof message; k++)
            HAS(message[k] == 7);
    }
}

/* A proof's buffer one byte too small stays as it was; the next is filled, and nothing behind it. */
static void try_proofs(void)
{
    uint8_t message[ROOM];
    size_t needed;
    uint8_t *room = malloc(proof_length + 1);
    HAS(room != NULL);
    memset(room, 7, proof_length + 1);
    HAS(voskligan_prove(statement, statement_length, trace, trace_length, room, proof_length - 1, &needed, message,
                        ROOM) == VOSKLIGAN_NO_ROOM);
    HAS(needed == proof_length && strcmp((char *)message, "no room\n") == 0);
    for (size_t k = 0; k <= proof_length; k++)
        HAS(room[k] == 7);
    HAS(voskligan_prove(statement, statement_length, trace, trace_length, room, proof_length, &needed, message, ROOM)
        == VOSKLIGAN_ACCEPTED);
    HAS(needed == proof_length && memcmp(room, proof, needed) == 0 && room[proof_length] == 7);
    HAS(voskligan_prove(statement, statement_length, false_trace, false_length, room, proof_length, &needed, message,
                        ROOM) == VOSKLIGAN_REFUSED);
    HAS(needed == 0 && memcmp(room, proof, proof_length) == 0);
    HAS(strncmp((char *)message, "row ", 4) == 0);
    free(room);
}

/* Arrays in arrays, as a statement, a proof and a trace. */
static void try_depths(void)
{
    static uint8_t text[2000];
    uint8_t message[ROOM];
    for (size_t depth = 1; depth <= 1000; depth++) {
        memset(text, '[', depth);
        memset(text + depth, ']', depth);
        HAS(voskligan_verify(text, 2 * depth, proof, proof_length, message, ROOM) == VOSKLIGAN_NOT_JUDGED);
        HAS(voskligan_verify(statement, statement_length, text, 2 * depth, message, ROOM) == VOSKLIGAN_NOT_JUDGED);
        HAS(voskligan_check(statement, statement_length, text, 2 * depth, message, ROOM) == VOSKLIGAN_NOT_JUDGED);
    }
}

/* An AIR of one constraint, whose nodes are each the sum of the one before and itself, and a trace of zeros. */
static void try_long_chain(void)
{
    enum { NODES = 100000 };
    const char *zeros = "[[0],[0],[0],[0]]";
    size_t room = NODES * 24 + 256, needed;
    char *text = malloc(room);
    uint8_t message[ROOM];
    HAS(text != NULL);
    int length = snprintf(text, room, "{\"air\":{\"width\":1,\"publics\":0,\"periodic\":[],\"constants\":[],"
                          "\"nodes\":[[\"main\",0]");
    for (int k = 0; k < NODES; k++)
        length += snprintf(text + length, room - (size_t)length, ",[\"add\",%d,%d]", k, k);
    length += snprintf(text + length, room - (size_t)length, "],\"constraints\":[{\"base\":%d}]},\"public_values\":[]}",
                       NODES);
    uint8_t *chain = (uint8_t *)text, *columns = (uint8_t *)zeros;
    HAS(voskligan_prove(chain, (size_t)length, columns, strlen(zeros), NULL, 0, &needed, message, ROOM)
        == VOSKLIGAN_NO_ROOM);
    uint8_t *made = malloc(needed);
    HAS(made != NULL);
    HAS(voskligan_prove(chain, (size_t)length, columns, strlen(zeros), made, needed, &needed, message, ROOM)
        == VOSKLIGAN_ACCEPTED);
    HAS(voskligan_verify(chain, (size_t)length, made, needed, message, ROOM) == VOSKLIGAN_ACCEPTED);
    free(made);
    free(text);
}

static void *try_buffers(void *argument)
{
    try_lengths();
    try_floors();
    try_rooms();
    try_proofs();
    try_depths();
    try_long_chain();
    return argument;
}

int main(int count, char **words)
{
    uint8_t message[ROOM];
    HAS(count == 4);
    statement_length = read_whole(words[1], statement, sizeof statement);
    trace_length = read_whole(words[2], trace, sizeof trace);
    false_length = read_whole(words[3], false_trace, sizeof false_trace);
    HAS(voskligan_check(statement, statement_length, trace, trace_length, message, ROOM) == VOSKLIGAN_ACCEPTED);
    HAS(voskligan_prove(statement, statement_length, trace, trace_length, NULL, 0, &proof_length, message, ROOM)
        == VOSKLIGAN_NO_ROOM);
    proof = malloc(proof_length);
    HAS(proof != NULL);
    HAS(voskligan_prove(statement, statement_length, trace, trace_length, proof, proof_length, &proof_length, message,
                        ROOM) == VOSKLIGAN_ACCEPTED);
    try_threads();
    HAS(pthread_join(start(try_buffers, NULL), NULL) == 0);
    HAS(voskligan_version(message, ROOM) == strlen((char *)message));
    free(proof);
    printf("%s: %d proofs, %d threads, %d KB of stack: as they have to be\n", message, PROOFS, THREADS, STACK / 1024);
    return 0;
}
