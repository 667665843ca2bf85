/* The fields of a posted form, application/x-www-form-urlencoded. */
#ifndef PORTAL_FORM_H
#define PORTAL_FORM_H

#include <stdbool.h>
#include <stddef.h>

enum { FORM_BODY = 4096, FORM_FIELDS = 4 };

typedef struct form {
  int count;
  const char *names[FORM_FIELDS];
  const char *values[FORM_FIELDS];
} form;

/* Reads a body of this length in place; there is one more char of room behind it. False if it
** has more than FORM_FIELDS fields, a name twice, a bad escape, or a char that no field of the
** portal needs: only printable ASCII, spaces and line ends are taken. */
bool form_read(form *read, char *body, size_t length);

/* The value of a name, or NULL. */
const char *form_value(const form *in, const char *name);

#endif
