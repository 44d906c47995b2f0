/* The memory of the library: the three functions that it asks, over malloc, realloc and free.
 *
 * A program that has an allocator of its own defines all three itself, and links libfulwethi.a behind its objects: then those of this
 * file aren't taken. Each answers whether there was memory, and where; a refusal is told to the caller as FULWETHI_NO_MEMORY, and loses nothing.
 *   - n and align: so many bytes, at a multiple of align, a power of two up to 16 that divides n. n may be 0: then the place is told
 *     to rattle_dealloc too, and nothing is read or written there;
 *   - kept: so many bytes at the front stay when a place is moved. Of a refusal the old place is left as it was;
 *   - a refusal's place isn't null, though nobody uses it. */
#include <stddef.h>
#include <stdlib.h>
#include <stdbool.h>

struct tried { bool ok; void *place; };

struct tried rattle_alloc(size_t n, size_t align);
struct tried rattle_realloc(void *place, size_t kept, size_t n, size_t align);
void rattle_dealloc(void *place);

static char nothing;

static struct tried tried(void *place) {
    return (struct tried){.ok = place != NULL, .place = place ? place : &nothing};
}

/* malloc and realloc align to each power of two up to 16 that divides the size. One of 0 bytes may be answered by null, or free it. */
struct tried rattle_alloc(size_t n, size_t align) { return tried(malloc(n ? n : align)); }

struct tried rattle_realloc(void *place, size_t kept, size_t n, size_t align) {
    (void)kept;
    return tried(realloc(place, n ? n : align));
}

void rattle_dealloc(void *place) { free(place); }
