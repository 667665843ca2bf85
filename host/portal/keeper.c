#include "keeper.h"
#include <stdlib.h>
#include <string.h>

enum { FIRST_QUEUE = 1, FIRST_ANNEX = 8, DUE_EIGHTHS = 6 };

#define LENT(of)                                                                                   \
  (of)->main, (of)->main_words, (of)->queue, (of)->queue_words, (of)->annex, (of)->annex_words

static bool lend(uint32_t **words, size_t *count, size_t wanted) {
  if (wanted <= *count)
    return true;
  uint32_t *longer = realloc(*words, wanted * sizeof **words);
  if (!longer)
    return false;
  memset(longer + *count, 0, (wanted - *count) * sizeof *longer);
  *words = longer;
  *count = wanted;
  return true;
}

void keeper_drop(keeper *of) {
  free(of->main);
  free(of->queue);
  free(of->annex);
  memset(of, 0, sizeof *of);
}

uint32_t keeper_start(keeper *of, keeper_settings settings) {
  keeper_drop(of);
  if (settings.start_power > 10)
    return KJ_SETTINGS;
  if (!lend(&of->main, &of->main_words, (size_t)1 << settings.start_power) ||
      !lend(&of->queue, &of->queue_words, FIRST_QUEUE) ||
      !lend(&of->annex, &of->annex_words, FIRST_ANNEX))
    return KEEPER_MEMORY;
  return kj_start(&of->filter, LENT(of), settings.start_power, settings.fingerprint,
                  settings.regime);
}

static uint32_t double_into(keeper *of, uint32_t *larger, size_t words) {
  uint32_t number = kj_double(&of->filter, LENT(of), larger, words);
  if (number != KJ_ANNEX)
    return number;
  if (!lend(&of->annex, &of->annex_words, words)) /* always enough, as the header says */
    return KEEPER_MEMORY;
  return kj_double(&of->filter, LENT(of), larger, words);
}

static uint32_t make_double(keeper *of) {
  size_t words = 2 * of->main_words;
  uint32_t *larger = calloc(words, sizeof *larger);
  if (!larger)
    return KEEPER_MEMORY;
  uint32_t number = double_into(of, larger, words);
  free(number == KJ_OK ? of->main : larger);
  if (number != KJ_OK)
    return number;
  of->main = larger;
  of->main_words = words;
  return KJ_OK;
}

static bool share_used(const keeper *of, size_t eighths) {
  return 8 * (size_t)of->filter.used >= eighths * of->main_words;
}

uint32_t keeper_night(keeper *of) {
  uint32_t number = kj_settle(&of->filter, LENT(of));
  if (number != KJ_OK || !share_used(of, DUE_EIGHTHS))
    return number;
  number = make_double(of);
  return number == KJ_LARGEST ? KJ_OK : number; /* as long as there is room, it goes on */
}

/* One doubling may not be enough, since it doubles void entries too. */
uint32_t keeper_insert(keeper *of, uint64_t hash) {
  uint32_t number = kj_insert(&of->filter, LENT(of), hash);
  while (number == KJ_FULL) {
    uint32_t night = keeper_night(of);
    if (night != KJ_OK)
      return night;
    number = kj_insert(&of->filter, LENT(of), hash);
    if (number == KJ_FULL && of->filter.k == KJ_POWER_MOST)
      break;
  }
  return number;
}

uint32_t keeper_delete(keeper *of, uint64_t hash) {
  uint32_t number = kj_delete(&of->filter, LENT(of), hash);
  if (number != KJ_QUEUE)
    return number;
  if (of->queue_words >= KJ_QUEUE_MOST)
    number = kj_settle(&of->filter, LENT(of));
  else
    number = lend(&of->queue, &of->queue_words, 2 * of->queue_words) ? KJ_OK : KEEPER_MEMORY;
  return number == KJ_OK ? kj_delete(&of->filter, LENT(of), hash) : number;
}
