/* Answers the cases of a file by the library, in some threads at once, and compares: library_cases FILE THREADS STACK.
 *
 * A case is four numbers of 32 bits, the lengths of its words, input and text and its status, and then these three.
 * STACK is the stack of each thread in KiB. */
#include <fc.h>
#include <pthread.h>
#include <stdatomic.h>
#include <stdio.h>
#include <stdlib.h>
#include <string.h>

enum { WORDS, INPUT, TEXT, STATUS, NUMBERS };

struct given {
    uint32_t numbers[NUMBERS];
    const uint8_t *words, *input, *text;
};

static uint8_t *content;
static struct given *cases;
static size_t count;
static atomic_size_t next, failed;

static void stop(const char *why) {
    fprintf(stderr, "library_cases: %s\n", why);
    exit(2);
}

/* Reads a file whole, and gives its length. */
static size_t read_file(const char *name) {
    FILE *file = fopen(name, "rb");
    if (!file || fseek(file, 0, SEEK_END)) stop(name);
    size_t length = (size_t)ftell(file);
    content = malloc(length + 1);
    rewind(file);
    if (!content || fread(content, 1, length, file) != length) stop(name);
    fclose(file);
    return length;
}

static const uint8_t *take(const uint8_t **at, size_t length) {
    const uint8_t *taken = *at;
    *at += length;
    return taken;
}

static void read_cases(const char *name) {
    size_t length = read_file(name);
    const uint8_t *at = content, *end = at + length;
    while (at < end) {
        cases = realloc(cases, (count + 1) * sizeof *cases);
        if (!cases) stop("no memory");
        struct given *it = &cases[count++];
        memcpy(it->numbers, take(&at, sizeof it->numbers), sizeof it->numbers);
        it->words = take(&at, it->numbers[WORDS]);
        it->input = take(&at, it->numbers[INPUT]);
        it->text = take(&at, it->numbers[TEXT]);
    }
}

/* Whether a call with a room of this size answers as it has to: only where the text fits does it change the room. */
static int answers(const struct given *it, size_t size) {
    uint8_t *room = malloc(size + 1), *before = malloc(size + 1);
    if (!room || !before) stop("no memory");
    memset(room, 0xa5, size + 1);
    memset(before, 0xa5, size + 1);
    size_t needed = 1, length = it->numbers[TEXT];
    uint32_t status = fc_reply(it->words, it->numbers[WORDS], it->input, it->numbers[INPUT], room, size, &needed);
    if (length <= size) memcpy(before, it->text, length);
    int is_well = status == it->numbers[STATUS] && needed == length && !memcmp(room, before, size + 1);
    free(room);
    free(before);
    return is_well;
}

static void *work(void *unused) {
    (void)unused;
    for (size_t at; (at = atomic_fetch_add(&next, 1)) < count;) {
        const struct given *it = &cases[at];
        size_t length = it->numbers[TEXT];
        if (!answers(it, length) || (length && length < 4096 && !answers(it, length - 1))) {
            printf("differs: %.*s: %.60s\n", (int)it->numbers[WORDS], (const char *)it->words, (const char *)it->input);
            failed++;
        }
    }
    return NULL;
}

int main(int argc, char **argv) {
    if (argc != 4) stop("FILE THREADS STACK");
    read_cases(argv[1]);
    enum { MOST = 64 };
    pthread_t threads[MOST];
    int wanted = atoi(argv[2]);
    pthread_attr_t with;
    if (wanted < 1 || wanted > MOST || pthread_attr_init(&with)) stop("how many threads?");
    if (pthread_attr_setstacksize(&with, (size_t)atoi(argv[3]) << 10)) stop("how much stack?");
    for (int i = 0; i < wanted; i++)
        if (pthread_create(&threads[i], &with, work, NULL)) stop("no thread");
    for (int i = 0; i < wanted; i++) pthread_join(threads[i], NULL);
    pthread_attr_destroy(&with);
    free(cases);
    free(content);
    printf("%zu passed, %zu failed\n", count - failed, (size_t)failed);
    return failed != 0;
}
