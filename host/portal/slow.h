/* The slow list, in SQLite: schools, every code that was spent or withdrawn, every status that
** was posted. Writing calls are made by one thread at a time; reading calls by any. */
#ifndef PORTAL_SLOW_H
#define PORTAL_SLOW_H

#include "codes.h"
#include <stddef.h>

typedef enum status { STATUS_OPEN, STATUS_CLOSED, STATUS_LATE, STATUS_COUNT } status;

typedef enum slow_number {
  SLOW_OK,
  SLOW_NONE,  /* it is not in the list */
  SLOW_HELD,  /* it is in the list already */
  SLOW_FAILED /* the list could not be read or written; nothing is changed */
} slow_number;

/* What became of a code that is in the list. */
typedef struct use {
  bool withdrawn;
  status posted; /* unless withdrawn */
  int64_t at;    /* seconds since 1970 */
} use;

enum { SCHOOL_NAME = 128 };

typedef struct school {
  uint32_t number;
  char name[SCHOOL_NAME];
  bool reported;
  status posted; /* the last one, if reported */
  int64_t at;
} school;

typedef struct slow slow;

/* NULL if the file can't be opened or is no slow list; an empty one is made where none is. */
slow *slow_open(const char *path);
void slow_close(slow *list);

slow_number slow_key(slow *list, uint8_t key[CODE_KEY]);

/* Writing. */
slow_number slow_add_school(slow *list, uint32_t number, const char *name);
/* Sets aside `count` serial numbers of a school, from *first on. */
slow_number slow_issue(slow *list, uint32_t school, uint32_t count, uint32_t *first);
/* Spends the code and posts the status, both or neither. SLOW_HELD: the code was spent before. */
slow_number slow_post(slow *list, const code *spent, status posted, int64_t at);
slow_number slow_withdraw(slow *list, const code *withdrawn, int64_t at);
/* Takes the code out of the list. SLOW_NONE: it is not there. */
slow_number slow_give_back(slow *list, const code *back);

/* Reading. */
slow_number slow_find(slow *list, const char *code_text, use *found);
slow_number slow_count(slow *list, uint64_t *count);
/* At most `most` schools, by number; how many there are. */
slow_number slow_schools(slow *list, school *schools, size_t most, size_t *count);
/* Every code in the list; stops when `visit` says false, and then answers SLOW_FAILED. */
typedef bool slow_visit(void *with, const char *code_text);
slow_number slow_each(slow *list, slow_visit *visit, void *with);

#endif
