/* The front page's own bytes of the filter, and the one question that is asked of them. */
#ifndef PORTAL_FRONT_H
#define PORTAL_FRONT_H

#include "keeper.h"
#include <pthread.h>
#include <stdbool.h>

typedef struct front {
  pthread_rwlock_t lock;
  uint32_t k, width;
  uint8_t *bytes;
  size_t length;
  bool believed; /* false: no answer of the filter is believed, all is looked up */
} front;

void front_open(front *of);
void front_close(front *of);

/* Makes the bytes of the filter that a keeper has, then puts them in place of the old ones, and
** believes them. Without memory for them, or where the record is out of range and so has no
** width, nothing is believed any more. */
void front_show(front *of, const keeper *from);

/* Believes no answer until the next front_show. */
void front_doubt(front *of);
bool front_believed(front *of);

/* True only if the filter says no, and is believed: the code is not spent. */
bool front_says_no(front *of, uint64_t hash);

#endif
