/* A first filter: filled to its load limit, doubled until its entries have no bits left, asked,
** withdrawn from and settled. Built with cc first.c $(pkg-config --cflags --libs kjarnhul) */
#include "kjarnhul.h"
#include <inttypes.h>
#include <stdio.h>
#include <stdlib.h>

static kj_filter f;
static uint32_t tables[5][128], queue[4], annex[8];
static uint32_t *const first = tables[0], *const last = tables[4];

/* Says what a call answered, and stops unless it is the number expected. */
static void check(const char *call, uint64_t on, uint32_t number, uint32_t expected) {
  printf("%s %" PRIu64 ": %" PRIu32 "\n", call, on, number);
  if (number != expected)
    exit(1);
}

static void ask(uint64_t hash, uint32_t expected) {
  check("query", hash, kj_query(&f, last, 128, queue, 4, annex, 8, hash), expected);
}

int main(void) {
  check("start", 3, kj_start(&f, first, 8, queue, 4, annex, 8, 3, 3, KJ_REGIME_FIXED), KJ_OK);
  for (uint64_t hash = 0; hash < 63; hash += 9)
    check("insert", hash, kj_insert(&f, first, 8, queue, 4, annex, 8, hash), KJ_OK);
  check("insert", 63, kj_insert(&f, first, 8, queue, 4, annex, 8, 63), KJ_FULL);
  for (size_t n = 8, i = 0; i < 4; n *= 2, i++)
    check("double", n, kj_double(&f, tables[i], n, queue, 4, annex, 8, tables[i + 1], 2 * n),
          KJ_OK);
  for (uint64_t hash = 0; hash < 63; hash += 9)
    ask(hash, KJ_YES);
  check("delete", 54, kj_delete(&f, last, 128, queue, 4, annex, 8, 54), KJ_OK);
  ask(54, KJ_NO);
  ask(54 + 64, KJ_YES); /* an entry without bits stands here too, until Settle */
  check("settle", 1, kj_settle(&f, last, 128, queue, 4, annex, 8), KJ_OK);
  ask(54 + 64, KJ_NO);
  return 0;
}
