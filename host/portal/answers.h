/* What the portal answers on each path, without the ways of HTTP. */
#ifndef PORTAL_ANSWERS_H
#define PORTAL_ANSWERS_H

#include "form.h"
#include "portal.h"
#include "text.h"

typedef struct question {
  form fields;        /* of a POST */
  const char *school; /* the school that a GET of /posted names, or NULL */
  bool from_here;     /* it comes from this machine, and through no proxy */
} question;

typedef struct reply {
  unsigned status;
  const char *type;
  bool lasting;      /* a browser may keep it for an hour */
  char location[32]; /* where to go on, if not empty */
  text body;
} reply;

typedef void answer(portal *of, const question *asked, reply *to);

typedef struct path {
  const char *name;
  answer *get, *post; /* NULL: not allowed */
} path;

/* The path of this name, or NULL. */
const path *path_find(const char *name);

/* The office's, in office.c. */
answer get_office, get_state, post_withdraw, post_giveback, post_night;

/* What is said when the slow list fails. */
extern const char list_failed[];

/* A plain page for what is not allowed. */
void answer_notice(reply *to, unsigned status, const char *heading, const char *said);

#endif
