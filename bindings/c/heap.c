/* How libwarn_codes takes and gives back memory: by malloc, realloc and free, whose blocks are
 * aligned to 16 bytes. */
#include <stdint.h>
#include <stdlib.h>

struct block {
    uint64_t taken;
    void *at;
};

static char nowhere[16] __attribute__((aligned(16)));

static struct block block_at(void *at) {
    struct block block = {at != NULL, at != NULL ? at : nowhere};
    return block;
}

struct block rattle_alloc(size_t size, size_t align) {
    return block_at(malloc(size ? size : align));
}

struct block rattle_realloc(void *at, size_t old, size_t size, size_t align) {
    (void)old;
    return block_at(realloc(at, size ? size : align));
}

void rattle_dealloc(void *at) {
    free(at);
}
