#include "form.h"
#include <ctype.h>
#include <string.h>

static int hex_value(char sign) {
  static const char digits[] = "0123456789abcdef";
  const char *found = sign ? strchr(digits, tolower((unsigned char)sign)) : NULL;
  return found ? (int)(found - digits) : -1;
}

static bool allowed(int sign) {
  return (sign >= ' ' && sign <= '~') || sign == '\t' || sign == '\r' || sign == '\n';
}

/* The char that an escape %XX at `from` stands for, or -1. */
static int unescaped(const char *from) {
  int high = hex_value(from[1]);
  int low = high < 0 ? -1 : hex_value(from[2]);
  return low < 0 ? -1 : high * 16 + low;
}

/* Decodes a string in place; it never gets longer. */
static bool decode(char *part) {
  char *to = part;
  for (const char *from = part; *from; from++) {
    int sign = *from == '+' ? ' ' : *from == '%' ? unescaped(from) : *from;
    if (!allowed(sign))
      return false;
    if (*from == '%')
      from += 2;
    *to++ = (char)sign;
  }
  *to = 0;
  return true;
}

static bool add_field(form *to, char *field) {
  char *value = strchr(field, '=');
  if (!value || to->count == FORM_FIELDS)
    return false;
  *value++ = 0;
  if (!decode(field) || !decode(value) || form_value(to, field))
    return false;
  to->names[to->count] = field;
  to->values[to->count++] = value;
  return true;
}

bool form_read(form *read, char *body, size_t length) {
  memset(read, 0, sizeof *read);
  body[length] = 0;
  if (strlen(body) != length)
    return false;
  for (char *next, *field = body; field && *field; field = next) {
    next = strchr(field, '&');
    if (next)
      *next++ = 0;
    if (!add_field(read, field))
      return false;
  }
  return true;
}

const char *form_value(const form *in, const char *name) {
  for (int i = 0; i < in->count; i++)
    if (strcmp(in->names[i], name) == 0)
      return in->values[i];
  return NULL;
}
