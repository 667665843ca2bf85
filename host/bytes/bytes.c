/* Query on bytes: its numbers, and its answers against those of Query on the same words, which
** are good at first and then damaged. Prints each case that differs, and how many were tried. */
#include "kjarnhul.h"
#include <inttypes.h>
#include <stdio.h>

enum { POWER = 10, SLOTS = 1 << POWER, WIDTH = 9, HASHES = 20000 };

static kj_filter filter;
static uint32_t words[SLOTS], queue[1], annex[8];
static uint8_t bytes[4 * SLOTS];
static uint64_t state = 1;
static long tried, wrong;

static uint64_t hash_after(void) {
  state = state * UINT64_C(6364136223846793005) + UINT64_C(1442695040888963407);
  return state ^ (state >> 29);
}

static void expect(const char *what, uint32_t got, uint32_t right) {
  tried++;
  if (got != right) {
    wrong++;
    printf("%s: %" PRIu32 ", not %" PRIu32 "\n", what, got, right);
  }
}

static uint32_t ask(uint64_t hash) {
  return kj_query(&filter, words, SLOTS, queue, 1, annex, 8, hash);
}

static void to_bytes(void) {
  for (int i = 0; i < 4 * SLOTS; i++)
    bytes[i] = (uint8_t)(words[i / 4] >> (8 * (i % 4)));
}

/* Every answer on bytes is that on words, whatever the words are; how many are yes. */
static long compare(const char *what) {
  long held = 0;
  to_bytes();
  for (int i = 0; i < HASHES; i++) {
    uint64_t hash = hash_after();
    uint32_t answer = kj_query_bytes(POWER, WIDTH, hash, bytes, sizeof bytes);
    expect(what, answer, ask(hash));
    held += answer == KJ_YES;
  }
  return held;
}

static void numbers(void) {
  expect("k 2", kj_query_bytes(2, WIDTH, 0, bytes, 16), KJ_RECORD);
  expect("k 21", kj_query_bytes(21, WIDTH, 0, bytes, sizeof bytes), KJ_RECORD);
  expect("k far out", kj_query_bytes(UINT32_MAX, WIDTH, 0, bytes, sizeof bytes), KJ_RECORD);
  expect("w 3", kj_query_bytes(POWER, 3, 0, bytes, sizeof bytes), KJ_RECORD);
  expect("w 27", kj_query_bytes(POWER, 27, 0, bytes, sizeof bytes), KJ_RECORD);
  expect("w 3 and short", kj_query_bytes(POWER, 3, 0, bytes, 0), KJ_RECORD);
  expect("no bytes", kj_query_bytes(POWER, WIDTH, 0, bytes, 0), KJ_LENGTH);
  expect("a byte short", kj_query_bytes(POWER, WIDTH, 0, bytes, sizeof bytes - 1), KJ_LENGTH);
  expect("a power less", kj_query_bytes(POWER + 1, WIDTH, 0, bytes, sizeof bytes), KJ_LENGTH);
  expect("a power more", kj_query_bytes(POWER - 1, WIDTH, 0, bytes, sizeof bytes), KJ_LENGTH);
}

int main(void) {
  expect("start", kj_start(&filter, words, SLOTS, queue, 1, annex, 8, POWER, WIDTH - 1, 0), KJ_OK);
  printf("empty: %ld yes\n", compare("empty"));
  for (int i = 0; i < SLOTS - SLOTS / 8; i++) {
    uint64_t hash = hash_after();
    expect("insert", kj_insert(&filter, words, SLOTS, queue, 1, annex, 8, hash), KJ_OK);
    to_bytes();
    expect("held", kj_query_bytes(POWER, WIDTH, hash, bytes, sizeof bytes), KJ_YES);
  }
  expect("full", kj_insert(&filter, words, SLOTS, queue, 1, annex, 8, 0), KJ_FULL);
  printf("full: %ld yes\n", compare("full"));
  numbers();
  for (int round = 0; round < 50; round++) {
    for (int i = 0; i < 20; i++)
      words[hash_after() % SLOTS] ^= UINT32_C(1) << (hash_after() % 32);
    compare("damaged");
  }
  for (int i = 0; i < SLOTS; i++)
    words[i] = (uint32_t)hash_after();
  compare("random");
  for (int i = 0; i < SLOTS; i++)
    words[i] = UINT32_MAX;
  compare("all ones");
  printf("%ld tried, %ld wrong\n", tried, wrong);
  return wrong != 0;
}
