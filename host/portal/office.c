/* The office's answers: codes withdrawn and given back, the night job, the figures. */
#include "answers.h"
#include "pages.h"
#include <inttypes.h>
#include <stdio.h>
#include <string.h>

/* Compares all signs, so that the time taken tells nothing about the word. */
static bool same_word(const char *word, const char *given) {
  if (!given || strlen(given) != strlen(word))
    return false;
  unsigned differs = 0;
  for (; *word; word++, given++)
    differs |= (unsigned char)*word ^ (unsigned char)*given;
  return differs == 0;
}

static bool office_may(portal *of, const question *asked, reply *to) {
  if (asked->from_here && same_word(of->office_word, form_value(&asked->fields, "word")))
    return true;
  answer_notice(to, 403, "Not allowed",
                "This needs the office word, which the server printed when it started, and works "
                "only on the server's own machine.");
  return false;
}

void get_office(portal *of, const question *asked, reply *to) {
  (void)of;
  if (asked->from_here)
    page_office(&to->body, NULL);
  else
    answer_notice(to, 403, "Not allowed", "This page is only for the server's own machine.");
}

typedef struct tally {
  unsigned withdrawn, before, wrong, failed;
} tally;

static void withdraw_one(portal *of, const char *typed_code, tally *count) {
  switch (portal_withdraw(of, typed_code)) {
  case DONE:
    count->withdrawn++;
    break;
  case SPENT:
    count->before++;
    break;
  case WRONG_CODE:
    count->wrong++;
    break;
  default:
    count->failed++;
  }
}

void post_withdraw(portal *of, const question *asked, reply *to) {
  const char *codes = form_value(&asked->fields, "codes");
  char list[FORM_BODY + 1], *rest = NULL, said[200];
  tally count = {0};
  if (!office_may(of, asked, to))
    return;
  snprintf(list, sizeof list, "%s", codes ? codes : "");
  for (char *one = strtok_r(list, "\r\n,;", &rest); one; one = strtok_r(NULL, "\r\n,;", &rest))
    withdraw_one(of, one, &count);
  snprintf(said, sizeof said,
           "%u withdrawn, %u spent or withdrawn before, %u not genuine, %u failed.",
           count.withdrawn, count.before, count.wrong, count.failed);
  to->status = count.failed ? 503 : count.wrong || !(count.withdrawn + count.before) ? 400 : 200;
  page_office(&to->body, said);
}

void post_giveback(portal *of, const question *asked, reply *to) {
  const char *typed_code = form_value(&asked->fields, "code");
  if (!office_may(of, asked, to))
    return;
  switch (typed_code ? portal_give_back(of, typed_code) : WRONG_CODE) {
  case DONE:
    page_office(&to->body, "The code works once more.");
    return;
  case NOT_SPENT:
    to->status = 409;
    page_office(&to->body, "The code was neither spent nor withdrawn. Nothing was changed.");
    return;
  case WRONG_CODE:
    to->status = 400;
    page_office(&to->body, "This is not a genuine code. Nothing was changed.");
    return;
  default:
    to->status = 503;
    page_office(&to->body, list_failed);
  }
}

void post_night(portal *of, const question *asked, reply *to) {
  if (!office_may(of, asked, to))
    return;
  bool well = portal_night(of);
  to->status = well ? 200 : 503;
  page_office(&to->body, well ? "The night job is done."
                              : "The filter is in doubt. Every code is looked up in the list.");
}

void get_state(portal *of, const question *asked, reply *to) {
  if (!asked->from_here) {
    answer_notice(to, 403, "Not allowed", "This page is only for the server's own machine.");
    return;
  }
  portal_state state = portal_look(of);
  size_t tables = 0;
  while (tables < KJ_PLACES && state.filter.annex[tables].length)
    tables++;
  to->type = "text/plain; charset=utf-8";
  text_print(&to->body, "believed %d\nlisted %" PRIu64 "\npower %u\nused %u\nqueue %u\n",
             state.believed, state.listed, (unsigned)state.filter.k, (unsigned)state.filter.used,
             (unsigned)state.filter.queue_length);
  text_print(&to->body, "annex-tables %zu\nqueue-lent %zu\nannex-lent %zu\n", tables,
             state.queue_words, state.annex_words);
  text_print(&to->body, "said-no %lu\nsaid-maybe %lu\nbuilt %lu\nnights %lu\n", of->said_no,
             of->said_maybe, of->rebuilt, of->nights);
}
