/* What the library asks of an allocator, by that of the C library. */
#include <stdbool.h>
#include <stdlib.h>

/* An allocation: whether it succeeded, and where it is. */
struct allocation {
    bool ok;
    void *place;
};

static char nowhere;

static struct allocation allocation_at(void *place) {
    return (struct allocation){place != NULL, place != NULL ? place : &nowhere};
}

struct allocation rattle_alloc(size_t size, size_t align) {
    return allocation_at(malloc(size != 0 ? size : align));
}

struct allocation rattle_realloc(void *place, size_t kept, size_t size, size_t align) {
    (void)kept;
    return allocation_at(realloc(place, size != 0 ? size : align));
}

void rattle_dealloc(void *place) {
    free(place);
}
