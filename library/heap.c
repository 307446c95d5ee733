/* Where libwarnc gets its memory: the three functions that the proved code calls, over malloc. A program with a heap of
 * its own defines all three, and then those of libwarnc.a stay out.
 *
 * It is compiled by the toolchain's compiler, which has no headers. */
typedef __SIZE_TYPE__ size_t;
void *malloc(size_t size);
void *realloc(void *old, size_t size);
void free(void *place);

/* Whether there is memory, and where it is. The place is never NULL. */
struct tried {
    _Bool has_memory;
    void *place;
};

static char nowhere[16];

static struct tried tried_of(void *place) {
    struct tried tried = {place != 0, place != 0 ? place : nowhere};
    return tried;
}

/* No alignment is over that of malloc. A size of 0 asks for a place of its own, too. */
struct tried rattle_alloc(size_t size, size_t alignment) {
    return tried_of(malloc(size != 0 ? size : alignment));
}

/* Where memory is refused, the old place stays as it is. */
struct tried rattle_realloc(void *old, size_t old_size, size_t size, size_t alignment) {
    (void)old_size;
    return tried_of(realloc(old, size != 0 ? size : alignment));
}

void rattle_dealloc(void *place) {
    free(place);
}
