/* The keeper of the filter: its record and the memory that it is lent. It takes no lock: its
** caller sees to it that one call runs at a time. */
#ifndef PORTAL_KEEPER_H
#define PORTAL_KEEPER_H

#include "kjarnhul.h"
#include <stdbool.h>

enum { KEEPER_MEMORY = 100 }; /* there is no more memory to lend; no number of the filter's */

typedef struct keeper_settings {
  uint32_t start_power, fingerprint, regime;
} keeper_settings;

typedef struct keeper {
  kj_filter filter;
  uint32_t *main, *queue, *annex;
  size_t main_words, queue_words, annex_words;
} keeper;

/* Each returns KJ_OK, the number of the call that was refused, or KEEPER_MEMORY. */

/* An empty filter; what the keeper had is given back. The keeper is all zero at first. */
uint32_t keeper_start(keeper *of, keeper_settings settings);

/* Inserts; a full filter is settled and doubled at once. */
uint32_t keeper_insert(keeper *of, uint64_t hash);

/* Deletes a hash that is held; lends a longer queue when it is used up. */
uint32_t keeper_delete(keeper *of, uint64_t hash);

/* The night job: settles, and doubles if six eighths of the slots are used. */
uint32_t keeper_night(keeper *of);

void keeper_drop(keeper *of);

#endif
