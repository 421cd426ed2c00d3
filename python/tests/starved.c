/* Has one allocation of a program find no memory: the one whose number stands in the variable WANTING. The file that the
   variable COUNT names has how many there were. */
#define _GNU_SOURCE
#include <dlfcn.h>
#include <fcntl.h>
#include <stdatomic.h>
#include <stddef.h>
#include <stdlib.h>
#include <sys/mman.h>

static void *(*plain_malloc)(size_t);
static void *(*plain_realloc)(void *, size_t);
/* until the program begins, nobody counts */
static atomic_ulong before;
static atomic_ulong *asked = &before;
static unsigned long wanting;

__attribute__((constructor)) static void begin(void) {
    int count = open(getenv("COUNT"), O_RDWR);
    plain_malloc = (void *(*)(size_t))dlsym(RTLD_NEXT, "malloc");
    plain_realloc = (void *(*)(void *, size_t))dlsym(RTLD_NEXT, "realloc");
    wanting = strtoul(getenv("WANTING"), NULL, 10);
    asked = mmap(NULL, sizeof *asked, PROT_READ | PROT_WRITE, MAP_SHARED, count, 0);
}

void *malloc(size_t size) {
    return ++*asked == wanting ? NULL : plain_malloc(size);
}

void *realloc(void *old, size_t size) {
    return ++*asked == wanting ? NULL : plain_realloc(old, size);
}
