/* Random changes of tables through the proved functions, held to a layout made here from the
 * entries alone; then damaged words, on which a call must end and stay inside the slice. */
#include <stdint.h>
#include <stdio.h>
#include <string.h>

uint32_t probe_insert(uint32_t *ws, size_t n, size_t c, uint32_t x);
uint32_t probe_remove(uint32_t *ws, size_t n, size_t c, uint32_t x);
uint32_t probe_raise_last(uint32_t *ws, size_t n, size_t c, uint32_t x);
uint32_t probe_exchange(uint32_t *ws, size_t n, size_t c, uint32_t x, uint32_t y);
uint32_t probe_first(const uint32_t *ws, size_t n, uint32_t k, uint32_t w, uint64_t hash);
uint32_t probe_first_bytes(const uint8_t *bytes, size_t n, uint32_t k, uint32_t w, uint64_t hash);

enum { MOST = 4096, GUARD = 16, REFUSED = 9, MAX_POWER = 12, LONGEST = 1048576 };
static const uint32_t none = UINT32_MAX, first_refused = UINT32_MAX - 1;

static unsigned long passed, failed;

static void expect(int holds, const char *what) {
  if (holds) {
    passed++;
  } else if (failed++ < 10) {
    fprintf(stderr, "failed: %s\n", what);
  }
}

static uint64_t state = 88172645463325252u;

static uint64_t roll64(void) {
  state ^= state << 13;
  state ^= state >> 7;
  state ^= state << 17;
  return state * 2685821657736338717u;
}

static uint32_t roll(uint32_t below) { return (uint32_t)((roll64() >> 32) % below); }

/* The lent words stand between guard words, which no call may change. */
static uint32_t room[GUARD + MOST + GUARD];
static uint32_t *const words = room + GUARD;

static uint32_t poison(size_t i) { return 0xdeadbee5u ^ (uint32_t)i * 0x01000193u; }

static void lend(const uint32_t *from, uint32_t n) {
  for (size_t i = 0; i < GUARD; i++) {
    room[i] = poison(i);
    words[n + i] = poison(i + GUARD);
  }
  memcpy(words, from, n * sizeof *words);
}

static int guarded(uint32_t n) {
  for (size_t i = 0; i < GUARD; i++) {
    if (room[i] != poison(i) || words[n + i] != poison(i + GUARD)) {
      return 0;
    }
  }
  return 1;
}

/* The entries, in the order of addresses and then of payloads. */
struct entry {
  uint32_t c, x;
};
static struct entry entries[MOST];
static uint32_t used;

/* How many entries come before (c, x). */
static uint32_t rank(uint32_t c, uint32_t x) {
  uint32_t low = 0, high = used;
  while (low < high) {
    uint32_t mid = (low + high) / 2;
    if (entries[mid].c < c || (entries[mid].c == c && entries[mid].x < x)) {
      low = mid + 1;
    } else {
      high = mid;
    }
  }
  return low;
}

static void add(uint32_t c, uint32_t x) {
  uint32_t i = rank(c, x);
  memmove(entries + i + 1, entries + i, (used - i) * sizeof *entries);
  entries[i] = (struct entry){c, x};
  used++;
}

static uint32_t erase(uint32_t c, uint32_t x) {
  uint32_t i = rank(c, x);
  if (i == used || entries[i].c != c || entries[i].x != x) {
    return 0;
  }
  used--;
  memmove(entries + i, entries + i + 1, (used - i) * sizeof *entries);
  return 1;
}

/* The carry into slot c by the formula: the largest of entries in the j slots before c, less j. */
static uint32_t carry_of(const uint32_t *length, uint32_t n, uint32_t c) {
  int64_t best = 0, sum = 0;
  for (uint32_t j = 1; j < n; j++) {
    sum += length[(c + n - j) % n];
    if (best < sum - (int64_t)j) {
      best = sum - (int64_t)j;
    }
  }
  return (uint32_t)best;
}

/* The same for all slots, each from the slot before it, in two laps. */
static void carries(const uint32_t *length, uint32_t n, uint32_t *carry) {
  uint32_t in = 0;
  for (uint32_t lap = 0; lap < 2; lap++) {
    for (uint32_t c = 0; c < n; c++) {
      carry[c] = in;
      in = in + length[c] > 0 ? in + length[c] - 1 : 0;
    }
  }
}

static uint32_t want[MOST];

static void lay_out(uint32_t n) {
  static uint32_t length[MOST], carry[MOST];
  memset(length, 0, n * sizeof *length);
  for (uint32_t i = 0; i < used; i++) {
    length[entries[i].c]++;
  }
  carries(length, n, carry);
  uint32_t tried = roll(n);
  expect(carry[tried] == carry_of(length, n, tried), "the two ways to a carry agree");
  memset(want, 0, n * sizeof *want);
  for (uint32_t i = 0, t = 0; i < used; i++) {
    uint32_t c = entries[i].c;
    t = i > 0 && entries[i - 1].c == c ? t + 1 : 0;
    uint32_t from_home = carry[c] + t;
    want[(c + from_home) % n] += entries[i].x * 8 + (from_home > 0 ? 4 : 0) + (t > 0 ? 2 : 0);
    want[c] += t == 0;
  }
}

/* A payload's match, bit by bit from the top. */
static int matches(uint32_t p, uint32_t w, uint32_t k, uint64_t hash) {
  uint32_t at = w;
  while (at > 0 && (p >> (at - 1) & 1) == 1) {
    at--;
  }
  if (at == 0) {
    return 0;
  }
  for (uint32_t j = 0; j + 1 < at; j++) {
    if ((p >> j & 1) != (hash >> (k + j) & 1)) {
      return 0;
    }
  }
  return 1;
}

static uint32_t first_match(uint32_t c, uint32_t w, uint32_t k, uint64_t hash) {
  for (uint32_t i = rank(c, 0); i < used && entries[i].c == c; i++) {
    if (matches(entries[i].x, w, k, hash)) {
      return entries[i].x;
    }
  }
  return none;
}

/* The walk on the lent words and on the same words as bytes, which answer the same. */
static uint32_t both_walks(uint32_t n, uint32_t k, uint32_t w, uint64_t hash) {
  static uint8_t bytes[4 * MOST];
  for (uint32_t i = 0; i < 4 * n; i++) {
    bytes[i] = (uint8_t)(words[i / 4] >> 8 * (i % 4));
  }
  uint32_t first = probe_first(words, n, k, w, hash);
  expect(probe_first_bytes(bytes, 4 * n, k, w, hash) == first, "words and bytes answer the same");
  return first;
}

/* One random table: 2^k slots, payloads of width w, addresses from base on. */
struct table {
  uint32_t k, n, w, base, spread, limit;
};

static uint32_t some_address(const struct table *t) { return (t->base + roll(t->spread)) % t->n; }

static uint32_t some_payload(const struct table *t) {
  uint32_t top = 1u << t->w;
  switch (roll(4)) {
  case 0:
    return top - 1;
  case 1:
    return top - 2;
  case 2:
    return roll(8) % top;
  default:
    return roll(top);
  }
}

/* Mostly an entry that is there. */
static struct entry some_entry(const struct table *t) {
  if (used > 0 && roll(6) > 0) {
    return entries[roll(used)];
  }
  return (struct entry){some_address(t), some_payload(t)};
}

static void try_insert(const struct table *t) {
  if (used < t->limit) {
    uint32_t c = some_address(t), x = some_payload(t);
    expect(probe_insert(words, t->n, c, x) == 1, "insert answers 1");
    add(c, x);
  }
}

static void try_remove(const struct table *t) {
  struct entry e = some_entry(t);
  expect(probe_remove(words, t->n, e.c, e.x) == erase(e.c, e.x), "remove's answer");
}

static void try_raise_last(const struct table *t) {
  struct entry e = some_entry(t);
  uint32_t void_entry = (1u << t->w) - 2;
  if (roll(4) > 0 || e.x > void_entry) {
    e.x = void_entry;
  }
  uint32_t there = erase(e.c, e.x);
  expect(probe_raise_last(words, t->n, e.c, e.x) == there, "raise_last's answer");
  if (there) {
    add(e.c, e.x + 1);
  }
}

static void try_exchange(const struct table *t) {
  struct entry e = some_entry(t);
  uint32_t y = some_payload(t), there = erase(e.c, e.x);
  expect(probe_exchange(words, t->n, e.c, e.x, y) == there, "exchange's answer");
  if (there) {
    add(e.c, y);
  }
}

static void try_first_match(const struct table *t) {
  struct entry e = some_entry(t);
  uint64_t bits = roll(2) ? e.x : roll64() >> 20;
  uint64_t hash = bits << t->k | e.c;
  expect(both_walks(t->n, t->k, t->w, hash) == first_match(e.c, t->w, t->k, hash),
         "the first match");
}

static void compare(const struct table *t) {
  lay_out(t->n);
  expect(memcmp(words, want, t->n * sizeof *want) == 0, "the words are the layout");
  expect(guarded(t->n), "the words around the slice are kept");
}

static void one_step(const struct table *t, uint32_t inserts) {
  uint32_t kind = roll(10);
  if (kind < inserts) {
    try_insert(t);
  } else if (kind == 6) {
    try_raise_last(t);
  } else if (kind == 7) {
    try_exchange(t);
  } else if (kind == 8) {
    try_first_match(t);
  } else {
    try_remove(t);
  }
  compare(t);
}

/* A table is filled, changed at its load, and emptied. */
static void one_table(uint32_t k) {
  uint32_t n = 1u << k;
  struct table t = {k, n, 4 + roll(23), roll(n), 1 + roll(roll(3) ? n : 4), n - n / 8};
  if (roll(4) == 0) {
    t.limit = n - 1;
  }
  used = 0;
  memset(want, 0, sizeof want);
  lend(want, n);
  uint32_t steps = n < 256 ? 3 * n : n + n / 2;
  for (uint32_t i = 0; i < steps; i++) {
    one_step(&t, i < 2 * steps / 3 ? 6 : 4);
  }
  while (used > 0) {
    struct entry e = entries[roll(used)];
    expect(probe_remove(words, n, e.c, e.x) == 1, "an entry that is there goes");
    erase(e.c, e.x);
    if (n <= 256 || used % 64 == 0) {
      compare(&t);
    }
  }
}

/* Words of no layout, or of a layout with a few words changed. */
static void damage(uint32_t k, uint32_t n, uint32_t *out) {
  if (roll(3) == 0) {
    for (uint32_t i = 0; i < n; i++) {
      uint32_t low[] = {0, roll(64), (uint32_t)roll64(), 4 + roll(4)};
      out[i] = low[roll(4)];
    }
    return;
  }
  struct table t = {k, n, 4 + roll(23), roll(n), 1 + roll(n), n - n / 8};
  used = 0;
  for (uint32_t i = roll(t.limit + 1); i > 0; i--) {
    add(some_address(&t), some_payload(&t));
  }
  lay_out(n);
  memcpy(out, want, n * sizeof *out);
  for (uint32_t i = 1 + roll(4); i > 0; i--) {
    out[roll(n)] ^= roll(2) ? 1u << roll(6) : (uint32_t)roll64();
  }
}

static void one_damaged(uint32_t k) {
  static uint32_t before[MOST];
  uint32_t n = roll(4) ? 1u << k : 2 + roll((1u << k) - 1);
  damage(k, n, before);
  lend(before, n);
  uint32_t c = roll(n), x = roll(3) ? before[roll(n)] / 8 : roll(1u << 26), answer = 1;
  switch (roll(5)) {
  case 0:
    answer = probe_insert(words, n, c, x);
    break;
  case 1:
    answer = probe_remove(words, n, c, x);
    break;
  case 2:
    answer = probe_raise_last(words, n, c, x);
    break;
  case 3:
    answer = probe_exchange(words, n, c, x, roll(1u << 26));
    break;
  default:
    both_walks(n, k, 4 + roll(23), roll64() << k | c);
    answer = 0;
  }
  expect(guarded(n), "damaged words: the words around the slice are kept");
  if (answer == 0) {
    expect(memcmp(words, before, n * sizeof *words) == 0, "answer 0: nothing is changed");
  } else {
    expect(answer == 1, "a known answer");
  }
}

static uint32_t large[LONGEST + 1];

/* A call that is out of range is refused and changes nothing. */
static void out_of_range(uint32_t *ws, size_t n, size_t c, uint32_t x) {
  expect(probe_insert(ws, n, c, x) == REFUSED, "insert is refused");
  expect(probe_exchange(ws, n, c, x, x) == REFUSED, "exchange is refused");
  expect(probe_raise_last(ws, n, c, x) == REFUSED, "raise_last is refused");
  if (x < 1u << 29) {
    expect(probe_remove(ws, n, c, x) == REFUSED, "remove is refused");
  }
}

/* A walk of n slots, k bits of address and payloads of width w is refused, on bytes too. */
static void walk_out_of_range(size_t n, uint32_t k, uint32_t w, uint64_t hash) {
  const uint8_t *bytes = (const uint8_t *)large;
  expect(probe_first(large, n, k, w, hash) == first_refused, "the walk is refused");
  expect(probe_first_bytes(bytes, 4 * n, k, w, hash) == first_refused, "that on bytes too");
}

static void refusals(void) {
  memset(want, 0, sizeof want);
  lend(want, 8);
  walk_out_of_range(0, 3, 4, 0);
  walk_out_of_range(1, 3, 4, 0);
  walk_out_of_range(LONGEST + 1, 20, 4, 0);
  walk_out_of_range(8, 4, 4, 8);
  walk_out_of_range(8, 21, 4, 0);
  walk_out_of_range(8, 3, 27, 0);
  out_of_range(words, 0, 0, 1);
  out_of_range(words, 1, 0, 1);
  out_of_range(words, 8, 8, 1);
  out_of_range(words, 8, SIZE_MAX, 1);
  out_of_range(words, 8, 0, 1u << 29);
  out_of_range(large, LONGEST + 1, 0, 1);
  expect(probe_raise_last(words, 8, 0, (1u << 29) - 1) == REFUSED, "no payload is above the top");
  expect(memcmp(words, want, 8 * sizeof *want) == 0 && guarded(8), "refused: nothing is changed");
}

/* The hash goes in with the 3 bits after its address, in a table of 8 slots. */
static void insert_hash(uint32_t hash) { probe_insert(words, 8, hash % 8, hash / 8 % 8); }

static void holds(const uint32_t *eight, const char *what) {
  expect(memcmp(words, eight, 8 * sizeof *words) == 0 && guarded(8), what);
}

/* Cases 1 to 4 of the numbers to check by hand. */
static void worked_cases(void) {
  memset(want, 0, sizeof want);
  lend(want, 8);
  insert_hash(20);
  insert_hash(44);
  insert_hash(13);
  holds((uint32_t[]){0, 0, 0, 0, 17, 47, 12, 0}, "case 1");
  insert_hash(61);
  holds((uint32_t[]){0, 0, 0, 0, 17, 47, 12, 62}, "case 2");
  insert_hash(7);
  holds((uint32_t[]){4, 0, 0, 0, 17, 47, 12, 63}, "case 3");
  expect(probe_remove(words, 8, 7, 0) == 1, "back to case 2");
  expect(probe_remove(words, 8, 4, 5) == 1, "44 goes");
  holds((uint32_t[]){0, 0, 0, 0, 17, 9, 62, 0}, "case 4");
}

int main(void) {
  worked_cases();
  for (uint32_t k = 3; k <= MAX_POWER; k++) {
    for (uint32_t i = 0; i < (k < 9 ? 8192u >> k : 8); i++) {
      one_table(k);
    }
    for (uint32_t i = 0; i < (k < 9 ? 25000u : 2000u); i++) {
      one_damaged(k);
    }
  }
  refusals();
  printf("%lu passed, %lu failed\n", passed, failed);
  return failed > 0;
}
