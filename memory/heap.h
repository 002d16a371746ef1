/* What the heap counts, and who says which requests it refuses. */
#ifndef HEAP_H
#define HEAP_H

#include <stddef.h>

struct counts {
    size_t requests; /* of new blocks and of other sizes, refused ones too */
    size_t blocks;   /* that are not yet freed */
    size_t bytes;    /* in these */
    size_t peak;     /* the most of these at once */
};

extern struct counts *counts;

/* Whether the request that was just counted is refused. */
_Bool is_refused(void);

#endif
