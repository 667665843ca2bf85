/* The pages, as HTML. They work without scripts, and every state is told by a word. */
#ifndef PORTAL_PAGES_H
#define PORTAL_PAGES_H

#include "portal.h"
#include "text.h"

/* The word for a status, as the page shows it and as the form sends it. */
const char *status_word(status of);
const char *status_name(status of);
/* False if it is none of the form's. */
bool status_read(const char *name, status *read);

/* What the posting form shows filled in after a refusal. */
typedef struct typed {
  uint32_t school; /* 0: none chosen */
  int posted;      /* -1: none chosen */
  const char *code;
} typed;

void page_front(text *to, board *from, int64_t now);
void page_post(text *to, board *from, const typed *before, const char *trouble);
void page_posted(text *to, const school *of, int64_t now);
void page_office(text *to, const char *said);
void page_notice(text *to, const char *heading, const char *said);

/* "today at 05:12", or with the day if it is another. */
void text_time(text *to, int64_t at, int64_t now);

extern const char style_sheet[];

#endif
