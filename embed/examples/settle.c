/* `fc` in a program of your own: answers words with what is on standard input.
 *
 *     cc -o settle settle.c $(pkg-config --cflags --libs fc)
 *     ./settle "check --settle" < hop_count_line.txt */
#include <fc.h>
#include <stdio.h>
#include <stdlib.h>

/* fc refuses inputs of more than a mebibyte, so there is no need to read more. */
#define MOST ((1 << 20) + 1)

int main(int argc, char **argv) {
    char *input = malloc(MOST);
    if (!input) return FC_MEMORY;
    size_t length = fread(input, 1, MOST, stdin);
    struct fc_answer answer = fc_call_bytes(argc > 1 ? argv[1] : "", input, length);
    free(input);
    if (answer.text) fwrite(answer.text, 1, answer.length, stdout);
    int status = (int)answer.status;
    fc_free(&answer);
    return status;
}
