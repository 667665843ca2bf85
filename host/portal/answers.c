#include "answers.h"
#include "pages.h"
#include <stdio.h>
#include <stdlib.h>
#include <string.h>
#include <time.h>

enum { TYPED_CODE = 40, DIGITS = 4 };

const char list_failed[] =
    "The list of codes could not be reached. Nothing was changed and your code is not spent. "
    "Please try again in a minute, or call the office.";

void answer_notice(reply *to, unsigned status, const char *heading, const char *said) {
  to->status = status;
  page_notice(&to->body, heading, said);
}

/* A number of one to four digits. */
static bool read_number(const char *digits, uint32_t *number) {
  size_t length = strlen(digits);
  if (length < 1 || length > DIGITS || strspn(digits, "0123456789") != length)
    return false;
  *number = (uint32_t)strtoul(digits, NULL, 10);
  return true;
}

static bool read_school(portal *of, const char *digits, school *found) {
  uint32_t number;
  return digits && read_number(digits, &number) && board_school(&of->board, number, found);
}

static void get_front(portal *of, const question *asked, reply *to) {
  (void)asked;
  page_front(&to->body, &of->board, time(NULL));
}

static void get_style(portal *of, const question *asked, reply *to) {
  (void)of, (void)asked;
  to->type = "text/css; charset=utf-8";
  to->lasting = true;
  text_add(&to->body, style_sheet);
}

static void get_post(portal *of, const question *asked, reply *to) {
  (void)asked;
  page_post(&to->body, &of->board, &(typed){.posted = -1}, NULL);
}

static void get_posted(portal *of, const question *asked, reply *to) {
  school found;
  if (read_school(of, asked->school, &found))
    page_posted(&to->body, &found, time(NULL));
  else
    answer_notice(to, 400, "No such school", "The address does not name a school of this portal.");
}

/* What is wrong with the fields of a post, or NULL. */
static const char *wrong_fields(portal *of, const form *fields, school *chosen, typed *before) {
  const char *school_digits = form_value(fields, "school");
  const char *status_given = form_value(fields, "status");
  const char *code_typed = form_value(fields, "code");
  status posted;
  if (read_school(of, school_digits, chosen))
    before->school = chosen->number;
  if (status_given && status_read(status_given, &posted))
    before->posted = (int)posted;
  if (!school_digits || !status_given || !code_typed || !*code_typed)
    return "Please choose a school and a status, and type a code.";
  if (strlen(code_typed) > TYPED_CODE)
    return "The code is too long. It has four groups of four signs.";
  before->code = code_typed;
  if (!before->school)
    return "Please choose one of the schools in the list.";
  return before->posted < 0 ? "Please choose one of the three statuses." : NULL;
}

static void tell_earlier(text *to, const use *earlier) {
  if (earlier->withdrawn) {
    text_add(to, "This code was withdrawn by the office ");
    text_time(to, earlier->at, time(NULL));
    text_add(to, ". Please use a code of your newest sheet, or call the office.");
    return;
  }
  text_print(to, "This code was used before, to post \"%s\" ", status_word(earlier->posted));
  text_time(to, earlier->at, time(NULL));
  text_add(to, ". If that was you, your status is on the page and there is nothing to do. To post "
               "another status, use the next code on your sheet. If it was not you, please call "
               "the office.");
}

static unsigned tell_refusal(text *to, outcome refused, const use *earlier) {
  switch (refused) {
  case SPENT:
    tell_earlier(to, earlier);
    return 409;
  case OTHER_SCHOOL:
    text_add(to, "This code belongs to another school. Please check the school you chose.");
    return 403;
  case WRONG_CODE:
    text_add(to, "This is not a code of the portal. Please compare it with your sheet, sign by "
                 "sign.");
    return 403;
  default:
    text_add(to, list_failed);
    return 503;
  }
}

static void refuse_post(portal *of, reply *to, unsigned number, const typed *before,
                        const char *trouble) {
  to->status = number;
  page_post(&to->body, &of->board, before, trouble);
}

static void post_post(portal *of, const question *asked, reply *to) {
  school chosen;
  typed before = {.posted = -1};
  use earlier = {0};
  const char *wrong = wrong_fields(of, &asked->fields, &chosen, &before);
  if (wrong) {
    refuse_post(of, to, 400, &before, wrong);
    return;
  }
  outcome got = portal_post(of, chosen.number, (status)before.posted, before.code, &earlier);
  if (got == DONE) {
    to->status = 303; /* so that reloading the next page does not post again */
    snprintf(to->location, sizeof to->location, "/posted?school=%u", (unsigned)chosen.number);
    return;
  }
  text trouble = {0};
  unsigned number = tell_refusal(&trouble, got, &earlier);
  refuse_post(of, to, number, &before, trouble.failed ? list_failed : trouble.chars);
  text_drop(&trouble);
}

const path *path_find(const char *name) {
  static const path paths[] = {
      {"/", get_front, NULL},
      {"/style.css", get_style, NULL},
      {"/post", get_post, post_post},
      {"/posted", get_posted, NULL},
      {"/office", get_office, NULL},
      {"/withdraw", NULL, post_withdraw},
      {"/giveback", NULL, post_giveback},
      {"/night", NULL, post_night},
      {"/state", get_state, NULL},
  };
  for (size_t i = 0; i < sizeof paths / sizeof *paths; i++)
    if (strcmp(paths[i].name, name) == 0)
      return &paths[i];
  return NULL;
}
