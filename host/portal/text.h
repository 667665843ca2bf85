/* A text that grows, and the one way in which text gets into a page: escaped. */
#ifndef PORTAL_TEXT_H
#define PORTAL_TEXT_H

#include <stdbool.h>
#include <stddef.h>

typedef struct text {
  char *chars; /* NULL while empty */
  size_t length;
  size_t room;
  bool failed; /* memory ran out: the text is not whole */
} text;

void text_add(text *to, const char *chars);
void text_escape(text *to, const char *chars);
__attribute__((format(printf, 2, 3))) void text_print(text *to, const char *format, ...);

/* Gives back the text's memory. */
void text_drop(text *of);

#endif
