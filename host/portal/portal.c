#include "portal.h"
#include <stdio.h>
#include <string.h>
#include <sys/random.h>
#include <time.h>

static bool hold_again(void *with, const char *code_text) {
  portal *of = with;
  code held;
  return code_read(&held, of->key, code_text) && keeper_insert(&of->keeper, held.hash) == KJ_OK;
}

/* Builds the filter from the slow list, and believes it again only if every code is in it. */
static bool rebuild(portal *of) {
  front_doubt(&of->front);
  of->rebuilt++;
  bool whole = keeper_start(&of->keeper, of->settings) == KJ_OK &&
               slow_each(of->list, hold_again, of) == SLOW_OK;
  if (whole)
    front_show(&of->front, &of->keeper);
  else
    fprintf(stderr, "portal: the filter could not be built; every code is looked up\n");
  return whole && front_believed(&of->front);
}

/* After the filter changed as the list did: shows it. A refusal that should never come puts the
** filter in doubt, and it is built anew from the list, which has the change already. */
static bool show(portal *of, uint32_t number) {
  if (number == KJ_OK) {
    front_show(&of->front, &of->keeper);
    return front_believed(&of->front);
  }
  fprintf(stderr, "portal: the filter refused with %u\n", (unsigned)number);
  return rebuild(of);
}

static bool make_word(char word[OFFICE_WORD]) {
  uint8_t bytes[(OFFICE_WORD - 1) / 2];
  if (getrandom(bytes, sizeof bytes, 0) != (ssize_t)sizeof bytes)
    return false;
  for (size_t i = 0; i < sizeof bytes; i++)
    snprintf(word + 2 * i, 3, "%02x", bytes[i]);
  return true;
}

static bool open_list(portal *of, const char *path) {
  of->list = slow_open(path);
  return of->list && slow_key(of->list, of->key) == SLOW_OK && make_word(of->office_word) &&
         board_open(&of->board, of->list) == SLOW_OK;
}

bool portal_open(portal *of, const char *path, keeper_settings settings) {
  memset(of, 0, sizeof *of);
  pthread_mutex_init(&of->writer, NULL);
  front_open(&of->front);
  of->settings = settings;
  if (!open_list(of, path))
    return false;
  rebuild(of); /* in doubt, the portal works all the same, by the list alone */
  return true;
}

void portal_close(portal *of) {
  slow_close(of->list);
  board_close(&of->board);
  front_close(&of->front);
  keeper_drop(&of->keeper);
  pthread_mutex_destroy(&of->writer);
}

static outcome of_number(slow_number number) {
  switch (number) {
  case SLOW_OK:
    return DONE;
  case SLOW_HELD:
    return SPENT;
  case SLOW_NONE:
    return NOT_SPENT;
  default:
    return LIST_FAILED;
  }
}

/* DONE if the code may be spent as far as is known now. A no of the filter is believed; a maybe
** is looked up. */
static outcome not_spent_yet(portal *of, const code *asked, use *earlier) {
  if (front_says_no(&of->front, asked->hash)) {
    of->said_no++;
    return DONE;
  }
  of->said_maybe++;
  slow_number number = slow_find(of->list, asked->text, earlier);
  return number == SLOW_NONE ? DONE : number == SLOW_OK ? SPENT : LIST_FAILED;
}

/* The transaction has the last word: of two posts of one code that both came this far, the
** second finds it in the list. By then the filter says maybe, or it is wrong. */
static outcome spend(portal *of, const code *spent, status posted) {
  int64_t at = time(NULL);
  pthread_mutex_lock(&of->writer);
  slow_number number = slow_post(of->list, spent, posted, at);
  if (number == SLOW_OK) {
    board_post(&of->board, spent->school, posted, at);
    if (front_believed(&of->front))
      show(of, keeper_insert(&of->keeper, spent->hash));
  }
  if (number == SLOW_HELD && front_says_no(&of->front, spent->hash)) {
    fprintf(stderr, "portal: the filter said no to a code in the list\n");
    rebuild(of);
  }
  pthread_mutex_unlock(&of->writer);
  return of_number(number);
}

outcome portal_post(portal *of, uint32_t school, status posted, const char *typed, use *earlier) {
  code asked;
  if (!code_read(&asked, of->key, typed))
    return WRONG_CODE;
  if (asked.school != school)
    return OTHER_SCHOOL;
  outcome so_far = not_spent_yet(of, &asked, earlier);
  if (so_far != DONE)
    return so_far;
  so_far = spend(of, &asked, posted);
  if (so_far == SPENT && slow_find(of->list, asked.text, earlier) != SLOW_OK)
    return LIST_FAILED;
  return so_far;
}

outcome portal_withdraw(portal *of, const char *typed) {
  code asked;
  if (!code_read(&asked, of->key, typed))
    return WRONG_CODE;
  pthread_mutex_lock(&of->writer);
  slow_number number = slow_withdraw(of->list, &asked, time(NULL));
  if (number == SLOW_OK && front_believed(&of->front))
    show(of, keeper_insert(&of->keeper, asked.hash));
  pthread_mutex_unlock(&of->writer);
  return of_number(number);
}

/* The filter may only delete what it holds. It holds what the list held until now. */
outcome portal_give_back(portal *of, const char *typed) {
  code asked;
  if (!code_read(&asked, of->key, typed))
    return WRONG_CODE;
  pthread_mutex_lock(&of->writer);
  slow_number number = slow_give_back(of->list, &asked);
  if (number == SLOW_OK && front_believed(&of->front))
    show(of, keeper_delete(&of->keeper, asked.hash));
  pthread_mutex_unlock(&of->writer);
  return of_number(number);
}

bool portal_night(portal *of) {
  pthread_mutex_lock(&of->writer);
  bool well = front_believed(&of->front) ? show(of, keeper_night(&of->keeper)) : rebuild(of);
  of->nights++;
  pthread_mutex_unlock(&of->writer);
  return well;
}

portal_state portal_look(portal *of) {
  portal_state state = {0};
  pthread_mutex_lock(&of->writer);
  state.filter = of->keeper.filter;
  state.queue_words = of->keeper.queue_words;
  state.annex_words = of->keeper.annex_words;
  state.believed = front_believed(&of->front);
  pthread_mutex_unlock(&of->writer);
  if (slow_count(of->list, &state.listed) != SLOW_OK)
    state.listed = 0;
  return state;
}
