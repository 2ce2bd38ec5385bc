/*
 * voskligan.h: a STARK verifier, a check of traces and a prover, as libvoskligan.a.
 *
 * Each function is proved: what a call answers and what it writes is said below, and holds of every statement, proof
 * and trace, whatever their bytes. It is proved of the code that is compiled, under this one condition on a call:
 *
 *   - each pointer is valid for as many bytes as the length after it says, for reads where it is `const` and for
 *     reads and writes otherwise, from the call to its return; and a length is at most PTRDIFF_MAX. Where a length is
 *     0 the pointer may be NULL. `needed` is never NULL, and points at an aligned `size_t`.
 *   - what a call writes (`message`, `proof` of voskligan_prove, `key` of voskligan_key, `needed`, `text`) overlaps
 *     nothing else that the call is given, and meanwhile nobody else reads or writes it, or writes what the call reads.
 *
 * Nothing tests this: a call that breaks it is undefined, as in C.
 *
 * Memory comes from malloc, realloc and free, and all of it is freed before a call returns; where memory is refused
 * the answer is 2. The library keeps no state, prints nothing, starts no thread, opens no file, and ends no process.
 * So it may be called from any thread, and from many at once; not from a signal handler, and not in the forked child
 * of a process with threads. A stack of 192 KB was enough wherever it was tried (examples/c/threads.c); that is not
 * proved. The code is for Linux on x86-64-v2.
 */
#ifndef VOSKLIGAN_H
#define VOSKLIGAN_H

#include <stddef.h>
#include <stdint.h>

#ifdef __cplusplus
extern "C" {
#endif

/* What a call answers. */
enum {
    /* The proof is accepted, the trace satisfies the AIR, or the proof or the key is made and stands in the buffer. */
    VOSKLIGAN_ACCEPTED = 0,
    /* The proof is refused, a row of the trace breaks a constraint, the prover refuses, or the AIR passes a limit. */
    VOSKLIGAN_REFUSED = 1,
    /* Nothing was judged: the statement, the proof or the trace can't be read, or memory was refused. */
    VOSKLIGAN_NOT_JUDGED = 2,
    /* voskligan_prove and voskligan_key alone: there is a proof or a key, and no room for it. */
    VOSKLIGAN_NO_ROOM = 3,
    /* voskligan_verify_at_least alone: fewer bits are proved than are asked for, and the proof was not judged. */
    VOSKLIGAN_BELOW_FLOOR = 4
};

/*
 * A message is one line or two, each ended by a newline: the line that the program `voskligan` writes, as "accepted",
 * "refused OodEvaluationMismatch", "bad input", "out of memory", "satisfied" or "row 3: constraint 1 is 423446388"; and
 * after it, where there is something to say and memory to say it, the reason in words, or below a broken row its
 * constraint. It is cut to `room` - 1 bytes, a 0 byte stands after it, and the bytes after that stay as they were.
 * Where `room` is 0 nothing is written.
 */

/*
 * The verdict on a proof for a statement, from the bytes of both (docs/FORMATS.md): the statement JSON, the proof JSON or
 * the form in bytes that `voskligan prove --binary` writes.
 *
 * VOSKLIGAN_ACCEPTED is answered where the verifier, whose challenger has observed the whole statement first, accepts
 * the proof, and nowhere else; but where memory is refused nothing is judged. In the clear the columns that the proof
 * lists then break no constraint of the statement's AIR, or one of the two challenges is among the few that are bad. By
 * FRI, which a statement names by leaving its scheme out, whatever tables lead to the proof's roots are near to columns
 * that satisfy the AIR, or one of few draws was made, or the trees' hash collides (docs/FRI.md). The
 * statement, its field and its scheme with it, has to be fixed before a proof is looked at.
 */
int voskligan_verify(const uint8_t *statement, size_t statement_length, const uint8_t *proof, size_t proof_length,
                     uint8_t *message, size_t room);

/*
 * Makes the key of a statement (docs/FORMATS.md), once for all proofs: the digest of the statement and what a verifier
 * keeps of the preprocessed columns that its AIR declares.
 *
 * `*needed` becomes the length of the key, or 0 where there is none. Under VOSKLIGAN_ACCEPTED the first `*needed` bytes
 * of `key` are the key; else `key` stays as it was, and under VOSKLIGAN_NO_ROOM the key has `*needed` bytes: call again
 * with as much room. The message is "made", "no room", or that of voskligan_verify of a statement without a key.
 */
int voskligan_key(const uint8_t *statement, size_t statement_length, uint8_t *key, size_t key_room, size_t *needed,
                  uint8_t *message, size_t room);

/*
 * The verdict on a proof for a statement, with a key, from the bytes of all three: as voskligan_verify, but that
 * nothing is set up. Bytes that are no key, or one of another statement, are VOSKLIGAN_NOT_JUDGED.
 *
 * Where the key is the one that voskligan_key makes of the statement, the answer is one of voskligan_verify, and means
 * the same. Nothing tells it from another key that claims to be of the statement, of which nothing is said of the
 * preprocessed columns: the key has to be its owner's, as the statement is.
 */
int voskligan_verify_with_key(const uint8_t *statement, size_t statement_length, const uint8_t *key, size_t key_length,
                              const uint8_t *proof, size_t proof_length, uint8_t *message, size_t room);

/*
 * What voskligan_verify answers, where no fewer bits than `floor` are proved of the statement's proofs over traces as
 * high as this proof's; where fewer are, VOSKLIGAN_BELOW_FLOOR, and the message is "not judged: worth 38 proved bits at
 * this height", with that number. Nothing else is said of the proof then. For who takes statements as they come: what a
 * proof is worth depends on the numbers of the statement and on the height, which whoever proves chooses.
 */
int voskligan_verify_at_least(size_t floor, const uint8_t *statement, size_t statement_length, const uint8_t *proof,
                              size_t proof_length, uint8_t *message, size_t room);

/*
 * Whether a trace satisfies a statement's AIR. VOSKLIGAN_REFUSED tells the first row that breaks a constraint, and in
 * it the first constraint.
 */
int voskligan_check(const uint8_t *statement, size_t statement_length, const uint8_t *trace, size_t trace_length,
                    uint8_t *message, size_t room);

/*
 * Proves a trace that satisfies a statement's AIR.
 *
 * `*needed` becomes the length of the proof, or 0 where there is none. Under VOSKLIGAN_ACCEPTED the first `*needed`
 * bytes of `proof` are the proof, with a newline at its end; else `proof` stays as it was, and under
 * VOSKLIGAN_NO_ROOM the proof that was made has `*needed` bytes: call again with as much room. Nothing is written after
 * `proof_room` bytes.
 * The message is "proved", "no room", or that of voskligan_check or of the prover's refusal.
 */
int voskligan_prove(const uint8_t *statement, size_t statement_length, const uint8_t *trace, size_t trace_length,
                    uint8_t *proof, size_t proof_room, size_t *needed, uint8_t *message, size_t room);

/*
 * The library's version, written to `text` as a message is, with no newline. Answers its length, whatever `room` is.
 */
size_t voskligan_version(uint8_t *text, size_t room);

#ifdef __cplusplus
}
#endif

#endif
