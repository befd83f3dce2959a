/* s390x_alloc.c: the allocator of libs390x_c.a, over malloc.
 *
 * To give your own, link one file with these three functions in place of this one. `size` is below 2^63, and `align` is a
 * power of two up to 16. A function that fails answers ok false, and then leaves a block as it was; nothing reads its pointer
 * then, but it may not be null.
 */
#include <stdbool.h>
#include <stddef.h>
#include <stdlib.h>

typedef struct {
    bool ok;
    void *block;
} tried;

static tried answer(void *block) {
    static char nowhere;
    return block ? (tried){true, block} : (tried){false, &nowhere};
}

tried rattle_alloc(size_t size, size_t align);
tried rattle_realloc(void *block, size_t kept, size_t size, size_t align);
void rattle_dealloc(void *block);

/* A new block of `size` bytes; one of no bytes takes `align`, so that it has a place of its own. */
tried rattle_alloc(size_t size, size_t align) {
    return answer(malloc(size ? size : align));
}

/* The block with another size. Its first `kept` bytes are as they were. */
tried rattle_realloc(void *block, size_t kept, size_t size, size_t align) {
    (void)kept;
    return answer(realloc(block, size ? size : align));
}

void rattle_dealloc(void *block) {
    free(block);
}
