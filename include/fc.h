/* `fc` as a library for C: all commands for which no thread works. docs/library.md says what is proved of it. */
#ifndef FC_H
#define FC_H

#include <stddef.h>
#include <stdint.h>

#ifdef __cplusplus
extern "C" {
#endif

/* Statuses. 0 to 4 are those of the program `fc`, and come with a text. */
enum fc_status {
    FC_DONE = 0,
    FC_NO = 1,      /* a `no`, an `open` or a `no walks` */
    FC_USAGE = 2,   /* the words ask for no command */
    FC_WRONG = 3,   /* the input is wrong: the text says where */
    FC_LIMIT = 4,   /* the input passes a limit */
    FC_MEMORY = 7,  /* memory ran out: there is no text */
    FC_THREADS = 8  /* the words ask for work by threads, as `run` and `gen` do: there is no text */
};

/* The proved call: words and an input in, a status and a text out.
 *
 * The words are those of a command line without the program's name, with one space between each two, as
 * "check --settle". The input is what the program reads. *needed becomes the length of the text in bytes. If the
 * text fits into the room it is written to its front, without a NUL after it; otherwise the room stays as it is, and a
 * second call with a larger room gets it, since equal words and inputs have equal answers.
 *
 * What the caller owes:
 * - Each pointer is to as many bytes as its length says. With length 0 it may be NULL.
 * - The room and *needed can be written, and overlap nothing else of the call.
 * - No other thread touches any of them during the call.
 * - FC_STACK bytes of stack are left. Nothing proves this number: the deepest programs take less than 1.25 MiB.
 *
 * Calls of several threads may overlap. The call is not for a signal handler, nor for the forked child of a process
 * with threads. What it allocates, by malloc, it has freed when it returns. */
uint32_t fc_reply(const uint8_t *words, size_t words_length, const uint8_t *input, size_t input_length, uint8_t *room,
                  size_t room_length, size_t *needed);

#define FC_STACK (2u << 20)

/* Beside it, and not proved: the same with the text in memory of its own. */
struct fc_answer {
    uint32_t status;
    char *text;    /* ends in a NUL beyond its length; NULL with FC_MEMORY and FC_THREADS */
    size_t length;
};

/* Words that end in a NUL, with an input that ends in one or has a length. */
struct fc_answer fc_call(const char *words, const char *input);
struct fc_answer fc_call_bytes(const char *words, const void *input, size_t input_length);

/* Frees the text. */
void fc_free(struct fc_answer *answer);

#ifdef __cplusplus
}
#endif
#endif
