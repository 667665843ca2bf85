/* The parts of the portal one by one: codes, text, forms, the slow list, the keeper and the front,
** and what the portal does when the filter is damaged. Prints what went wrong, and a tally. */
#include "../form.h"
#include "../portal.h"
#include "../text.h"
#include <stdio.h>
#include <stdlib.h>
#include <string.h>
#include <unistd.h>

static const uint8_t key[CODE_KEY] = {0, 1, 2, 3, 4, 5, 6, 7, 8, 9, 10, 11, 12, 13, 14, 15};
static long tried, wrong;

static void expect(const char *what, bool right) {
  tried++;
  if (right)
    return;
  wrong++;
  printf("FAILED: %s\n", what);
}

/* The value that the authors of SipHash-2-4 publish for this key and the bytes 0 to 7. */
static void check_values(void) {
  uint64_t published = UINT64_C(0x93f5f5799a932462);
  expect("SipHash", code_check(key, UINT64_C(0x0706050403020100)) == published);
}

static void changed_signs(const code *made) {
  code read;
  char text[CODE_TEXT];
  for (int i = 0; i < CODE_TEXT - 1; i++) {
    memcpy(text, made->text, sizeof text);
    text[i] = text[i] == '7' ? '8' : '7';
    expect("a sign changed", !code_read(&read, key, text));
  }
}

static void codes(void) {
  const uint32_t ends[] = {0, 1, 2, 511, CODE_SCHOOLS - 1};
  code made, read;
  for (size_t i = 0; i < sizeof ends / sizeof *ends; i++) {
    code_make(&made, key, ends[i], CODE_SERIALS - 1 - ends[i]);
    expect("length", strlen(made.text) == CODE_TEXT - 1);
    expect("read", code_read(&read, key, made.text) && memcmp(&made, &read, sizeof made) == 0);
    changed_signs(&made);
  }
}

static void no_codes(void) {
  code read;
  const char *others[] = {"", "-", "0000-0000-0000-000", "0000-0000-0000-00000", "U", "\x80", "%s"};
  for (size_t i = 0; i < sizeof others / sizeof *others; i++)
    expect("no code", !code_read(&read, key, others[i]));
}

static void texts(void) {
  text made = {0};
  text_escape(&made, "<a href=\"x\">'&'</a>");
  expect("escape", !made.failed && strcmp(made.chars, "&lt;a href=&quot;x&quot;&gt;&#39;&amp;&#39;"
                                                      "&lt;/a&gt;") == 0);
  for (int i = 0; i < 10000; i++)
    text_print(&made, "%d ", 1234);
  expect("growth", !made.failed && made.length == strlen(made.chars) && made.length > 50000);
  text_drop(&made);
  text_print(&made, "%600d", 1);
  expect("a line too long is told", made.failed);
  text_drop(&made);
}

static bool reads(const char *body, form *read) {
  static char room[FORM_BODY + 1];
  snprintf(room, sizeof room, "%s", body);
  return form_read(read, room, strlen(room));
}

static void forms(void) {
  form read;
  expect("fields", reads("a=1&b=x%20y+z&c=", &read) && read.count == 3);
  expect("value", strcmp(form_value(&read, "b"), "x y z") == 0);
  expect("empty value", strcmp(form_value(&read, "c"), "") == 0);
  expect("no value", !form_value(&read, "d"));
  expect("nothing", reads("", &read) && read.count == 0);
  const char *bad[] = {"a", "a=1&a=2", "a=%", "a=%1", "a=%g0", "a=%00", "a=%ff", "a=1&&b=2"};
  for (size_t i = 0; i < sizeof bad / sizeof *bad; i++)
    expect(bad[i], !reads(bad[i], &read));
  char zero[] = {'a', '=', 0, 'b', 0};
  expect("zero byte", !form_read(&read, zero, 4));
}

static uint64_t hash_of(uint32_t serial) {
  code made;
  code_make(&made, key, 1, serial);
  return made.hash;
}

static void held_are_yes(const char *what, front *shown, uint32_t from, uint32_t to) {
  bool all = true;
  for (uint32_t i = from; i < to; i++)
    all = all && !front_says_no(shown, hash_of(i));
  expect(what, all);
}

static void insert_all(keeper *to, uint32_t from, uint32_t end) {
  for (uint32_t i = from; i < end; i++)
    expect("insert", keeper_insert(to, hash_of(i)) == KJ_OK);
}

static void delete_all(keeper *of, uint32_t from, uint32_t end) {
  for (uint32_t i = from; i < end; i++)
    expect("delete", keeper_delete(of, hash_of(i)) == KJ_OK);
}

/* From eight slots and three bits until codes have no bits left, with memory lent as it goes. */
static void keepers(keeper_settings settings, bool voids) {
  enum { CODES = 600, BACK = 100 };
  keeper kept = {0};
  front shown;
  front_open(&shown);
  expect("nothing is believed at first", !front_says_no(&shown, 1));
  expect("start", keeper_start(&kept, settings) == KJ_OK);
  insert_all(&kept, 0, CODES);
  front_show(&shown, &kept);
  held_are_yes("held after doubling", &shown, 0, CODES);
  delete_all(&kept, 0, BACK);
  expect("a longer queue was lent where needed", (kept.queue_words > 1) == voids);
  expect("a longer annex was lent where needed", (kept.annex_words > 8) == voids);
  expect("night", keeper_night(&kept) == KJ_OK && kept.filter.queue_length == 0);
  front_show(&shown, &kept);
  held_are_yes("held after the night", &shown, BACK, CODES);
  front_doubt(&shown);
  expect("in doubt nothing is believed", !front_says_no(&shown, hash_of(1000000)));
  front_close(&shown);
  keeper_drop(&kept);
}

/* What is shown once a number of the record is out of range. */
static void shown_without_width(const char *what, keeper *of, uint32_t *number, uint32_t bad) {
  uint32_t good = *number;
  front shown;
  front_open(&shown);
  front_show(&shown, of);
  expect("an empty filter says no", front_says_no(&shown, 1));
  *number = bad;
  front_show(&shown, of);
  expect(what, kj_width(&of->filter) == 0 && !front_believed(&shown) && !front_says_no(&shown, 1));
  *number = good;
  front_close(&shown);
}

/* A record out of range has no width, and no "no" of what is shown of it is believed. */
static void without_width(void) {
  keeper kept = {0};
  kj_filter *filter = &kept.filter;
  expect("start", keeper_start(&kept, (keeper_settings){10, 11, KJ_REGIME_FIXED}) == KJ_OK);
  shown_without_width("k too small", &kept, &filter->k, 9);
  shown_without_width("k too large", &kept, &filter->k, KJ_POWER_MOST + 1);
  shown_without_width("k far out", &kept, &filter->k, UINT32_MAX);
  shown_without_width("start power", &kept, &filter->start_power, 11);
  shown_without_width("fingerprint too short", &kept, &filter->fingerprint, 2);
  shown_without_width("fingerprint too long", &kept, &filter->fingerprint, 16);
  shown_without_width("regime", &kept, &filter->regime, UINT32_MAX);
  keeper_drop(&kept);
}

/* A damaged filter is found at night, or when it says no to a code in the list, and built anew. */
static void damaged(const char *list) {
  static portal of;
  enum { CODES = 40 };
  code made;
  use earlier;
  expect("open", portal_open(&of, list, (keeper_settings){3, 3, 0}));
  for (uint32_t i = 0; i < CODES; i++) {
    code_make(&made, of.key, 1, i);
    expect("post", portal_post(&of, 1, STATUS_LATE, made.text, &earlier) == DONE);
  }
  of.keeper.main[0] ^= 2;
  expect("the night job mends it", portal_night(&of) && of.rebuilt == 2);
  memset(of.keeper.main, 0, 4 * of.keeper.main_words);
  front_show(&of.front, &of.keeper);
  expect("a code in the list is refused",
         portal_post(&of, 1, STATUS_OPEN, made.text, &earlier) == SPENT);
  expect("and the filter was built anew", of.rebuilt == 3 && front_believed(&of.front));
  expect("all are in it", of.keeper.filter.used >= CODES && !front_says_no(&of.front, made.hash));
  of.keeper.filter.used = UINT32_MAX;
  code_make(&made, of.key, 1, CODES);
  expect("a post is taken", portal_post(&of, 1, STATUS_OPEN, made.text, &earlier) == DONE);
  expect("though the filter refused", of.rebuilt == 4 && !front_says_no(&of.front, made.hash));
  expect("once", portal_post(&of, 1, STATUS_OPEN, made.text, &earlier) == SPENT);
  front_doubt(&of.front);
  code_make(&made, of.key, 1, CODES + 1);
  expect("in doubt a post is taken", portal_post(&of, 1, STATUS_OPEN, made.text, &earlier) == DONE);
  expect("in doubt once", portal_post(&of, 1, STATUS_OPEN, made.text, &earlier) == SPENT);
  expect("the night ends the doubt", portal_night(&of) && !front_says_no(&of.front, made.hash));
  portal_close(&of);
}

/* The largest filter, 2^20 slots: full at seven eighths of them, and the refusal is told. */
static void largest(void) {
  enum { LIMIT = (1 << 20) - (1 << 17) };
  keeper kept = {0};
  expect("start", keeper_start(&kept, (keeper_settings){10, 11, KJ_REGIME_FIXED}) == KJ_OK);
  insert_all(&kept, 0, LIMIT);
  expect("largest", kept.filter.k == KJ_POWER_MOST && kept.filter.used == LIMIT);
  expect("full", keeper_insert(&kept, hash_of(LIMIT)) == KJ_FULL);
  expect("the night job goes on", keeper_night(&kept) == KJ_OK && kept.filter.used == LIMIT);
  keeper_drop(&kept);
}

static void add_school(const char *list) {
  slow *opened = slow_open(list);
  expect("list", opened && slow_add_school(opened, 1, "One") == SLOW_OK);
  slow_close(opened);
}

int main(int count, char **words) {
  if (count != 2) {
    fprintf(stderr, "usage: parts NEW_LIST\n");
    return 2;
  }
  check_values();
  codes();
  no_codes();
  texts();
  forms();
  keepers((keeper_settings){3, 3, KJ_REGIME_FIXED}, true);
  keepers((keeper_settings){3, 3, KJ_REGIME_WIDENING}, true);
  keepers((keeper_settings){10, 11, KJ_REGIME_FIXED}, false);
  without_width();
  largest();
  add_school(words[1]);
  damaged(words[1]);
  printf("parts: %ld tried, %ld wrong\n", tried, wrong);
  return wrong != 0;
}
