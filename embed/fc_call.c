/* A reply of `fc_reply` in memory of its own. Nothing proves this file. */
#include "fc.h"

#include <stdlib.h>
#include <string.h>

#define FIRST_ROOM 65536

static const struct fc_answer out_of_memory = {FC_MEMORY, NULL, 0};

/* Calls with so much room. If the text is longer, the answer has its length, and no text. */
static struct fc_answer call_with_room(const char *words, const void *input, size_t input_length, size_t room) {
    struct fc_answer answer = {FC_MEMORY, malloc(room + 1), 0};
    if (!answer.text) return out_of_memory;
    answer.status = fc_reply((const uint8_t *)words, strlen(words), input, input_length, (uint8_t *)answer.text, room,
                             &answer.length);
    if (answer.status <= FC_LIMIT && answer.length <= room) {
        answer.text[answer.length] = 0;
    } else {
        free(answer.text);
        answer.text = NULL;
    }
    return answer;
}

struct fc_answer fc_call_bytes(const char *words, const void *input, size_t input_length) {
    struct fc_answer answer = call_with_room(words, input, input_length, FIRST_ROOM);
    if (answer.status > FC_LIMIT || answer.text) return answer;
    return call_with_room(words, input, input_length, answer.length);
}

struct fc_answer fc_call(const char *words, const char *input) {
    return fc_call_bytes(words, input, strlen(input));
}

void fc_free(struct fc_answer *answer) {
    free(answer->text);
    answer->text = NULL;
    answer->length = 0;
}
