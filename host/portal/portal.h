/* What the portal does with codes. Spending, withdrawing and giving back go through the slow
** list first, then the filter, then the front page's bytes, all under one lock. */
#ifndef PORTAL_PORTAL_H
#define PORTAL_PORTAL_H

#include "board.h"
#include "front.h"
#include "slow.h"
#include <stdatomic.h>

enum { OFFICE_WORD = 33 }; /* 32 hex digits and the end */

typedef enum outcome {
  DONE,
  WRONG_CODE,   /* not genuine */
  OTHER_SCHOOL, /* genuine, but not this school's */
  SPENT,        /* spent or withdrawn before */
  NOT_SPENT,    /* giving back: the code is not in the slow list */
  LIST_FAILED   /* the slow list could not be read or written: nothing is changed */
} outcome;

typedef struct portal {
  slow *list;
  board board;
  front front;
  pthread_mutex_t writer; /* held while the list, the filter and the bytes change together */
  keeper keeper;
  keeper_settings settings;
  uint8_t key[CODE_KEY];
  char office_word[OFFICE_WORD];
  atomic_ulong said_no, said_maybe, rebuilt, nights;
} portal;

/* Figures for the office and for tests. */
typedef struct portal_state {
  kj_filter filter;
  size_t queue_words, annex_words;
  bool believed;
  uint64_t listed;
} portal_state;

/* Opens the list and builds the filter from it. */
bool portal_open(portal *of, const char *path, keeper_settings settings);
void portal_close(portal *of);

/* Posts a status. SPENT also tells what the code was used for. */
outcome portal_post(portal *of, uint32_t school, status posted, const char *typed, use *earlier);
/* From now on the code is refused. SPENT: it was refused already. */
outcome portal_withdraw(portal *of, const char *typed);
/* Takes a spent or withdrawn code out again: it works once more. What it posted stays. */
outcome portal_give_back(portal *of, const char *typed);

/* Settles and doubles the filter; builds it anew if it was in doubt. False if it still is. */
bool portal_night(portal *of);

portal_state portal_look(portal *of);

#endif
