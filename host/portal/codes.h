/* Codes: sixteen signs that name a school and a serial number and carry a keyed check value, so
** that a genuine code is told without a list. */
#ifndef PORTAL_CODES_H
#define PORTAL_CODES_H

#include <stdbool.h>
#include <stdint.h>

enum {
  CODE_KEY = 16,          /* bytes of the key that the check values are made with */
  CODE_TEXT = 20,         /* XXXX-XXXX-XXXX-XXXX and the end */
  CODE_SCHOOLS = 1 << 10, /* school numbers are below this */
  CODE_SERIALS = 1 << 20  /* serial numbers are below this */
};

typedef struct code {
  uint32_t school;
  uint32_t serial;
  uint64_t hash; /* the mother hash for the filter */
  char text[CODE_TEXT];
} code;

/* SipHash-2-4 of one number: a keyed hash made for short messages. */
uint64_t code_check(const uint8_t key[CODE_KEY], uint64_t number);

void code_make(code *made, const uint8_t key[CODE_KEY], uint32_t school, uint32_t serial);

/* Reads what a head typed: small letters, spaces and hyphens do not matter, O is 0, I and L are
** 1. False if it is no genuine code. */
bool code_read(code *read, const uint8_t key[CODE_KEY], const char *typed);

#endif
