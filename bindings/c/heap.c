/* What the library allocates by: the program's malloc, realloc and free. An allocation that fails returns `ok` 0. */
#include <stddef.h>
#include <stdlib.h>

struct block {
    unsigned long ok;
    void *p;
};

/* A place to point to if there is no block. */
static char none[16] __attribute__((aligned(16)));

static struct block given(void *p) {
    return (struct block){p != NULL, p != NULL ? p : none};
}

struct block rattle_alloc(size_t size, size_t align) {
    return given(malloc(size ? size : align));
}

struct block rattle_realloc(void *p, size_t before, size_t size, size_t align) {
    (void)before;
    return given(realloc(p, size ? size : align));
}

void rattle_dealloc(void *p) {
    free(p);
}
