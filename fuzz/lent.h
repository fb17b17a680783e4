/* Buffers lent to the library, each between two pages that nothing may touch.
 *
 * The archive is not instrumented, so the address sanitizer sees of its accesses only those made by memcpy and memset. Here the memory
 * itself refuses: a buffer ends at a page that may be neither read nor written (LAST), or starts after one (FIRST). The rest of its own
 * pages holds a fill, which is compared after the call. */
#ifndef LENT_H
#define LENT_H

#include <stddef.h>
#include <stdint.h>

/* The most bytes of one buffer: more than the 17,410 of document 02's largest bundle, and a whole number of values of two bytes. */
#define MOST_BYTES 20480

/* The most buffers of one call: six inputs, one that is read and written, and `out`. */
#define BUFFERS 8

/* Where in its pages a buffer lies. */
typedef enum { FIRST, LAST } place;

/* Gets the pages; to be called once, before the rest. */
void get_pages(void);

/* Buffer `which` of a call, with the bytes of `content`, or with the fill where that is null. A buffer of length 0 is a null pointer
 * at FIRST; at LAST it is a pointer to a byte that may not be touched. */
void *lend(int which, place where, const void *content, size_t length);

/* Whether every byte around the buffer that was lent last as `which` is still the fill. */
int surroundings_kept(int which);

/* Whether bytes `from` to the end of a buffer that was lent without content are still the fill. */
int fill_kept(int which, size_t from);

#endif
