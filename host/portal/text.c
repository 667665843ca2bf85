#include "text.h"
#include <stdarg.h>
#include <stdio.h>
#include <stdlib.h>
#include <string.h>

enum { FIRST_ROOM = 2048, LINE = 512 };

static bool make_room(text *to, size_t more) {
  size_t room = to->room ? to->room : FIRST_ROOM;
  while (room - to->length <= more)
    room *= 2;
  if (room == to->room)
    return true;
  char *chars = realloc(to->chars, room);
  if (!chars)
    return false;
  to->chars = chars;
  to->room = room;
  return true;
}

static void add_some(text *to, const char *chars, size_t length) {
  if (to->failed || !make_room(to, length)) {
    to->failed = true;
    return;
  }
  memcpy(to->chars + to->length, chars, length);
  to->length += length;
  to->chars[to->length] = 0;
}

void text_add(text *to, const char *chars) { add_some(to, chars, strlen(chars)); }

static const char *escaped(char sign) {
  switch (sign) {
  case '&':
    return "&amp;";
  case '<':
    return "&lt;";
  case '>':
    return "&gt;";
  case '"':
    return "&quot;";
  case '\'':
    return "&#39;";
  default:
    return NULL;
  }
}

void text_escape(text *to, const char *chars) {
  for (; *chars; chars++) {
    const char *instead = escaped(*chars);
    if (instead)
      text_add(to, instead);
    else
      add_some(to, chars, 1);
  }
}

void text_print(text *to, const char *format, ...) {
  char line[LINE];
  va_list values;
  va_start(values, format);
  int length = vsnprintf(line, sizeof line, format, values);
  va_end(values);
  if (length < 0 || length >= LINE)
    to->failed = true;
  else
    add_some(to, line, (size_t)length);
}

void text_drop(text *of) {
  free(of->chars);
  *of = (text){0};
}
