#include "codes.h"
#include <ctype.h>
#include <stdio.h>
#include <string.h>
#include <xxhash.h>

enum { SIGNS = 16, NUMBER_SIGNS = 6, CHECK_SIGNS = 10, CHECK_BITS = 50 };

static const char signs[] = "0123456789ABCDEFGHJKMNPQRSTVWXYZ";

static uint64_t turned(uint64_t word, int bits) { return word << bits | word >> (64 - bits); }

static void sip_rounds(uint64_t v[4], int rounds) {
  for (int i = 0; i < rounds; i++) {
    v[0] += v[1], v[2] += v[3];
    v[1] = turned(v[1], 13) ^ v[0], v[3] = turned(v[3], 16) ^ v[2];
    v[0] = turned(v[0], 32);
    v[2] += v[1], v[0] += v[3];
    v[1] = turned(v[1], 17) ^ v[2], v[3] = turned(v[3], 21) ^ v[0];
    v[2] = turned(v[2], 32);
  }
}

static uint64_t word_of(const uint8_t *bytes) {
  uint64_t word = 0;
  for (int i = 7; i >= 0; i--)
    word = word << 8 | bytes[i];
  return word;
}

static void sip_word(uint64_t v[4], uint64_t word) {
  v[3] ^= word;
  sip_rounds(v, 2);
  v[0] ^= word;
}

uint64_t code_check(const uint8_t key[CODE_KEY], uint64_t number) {
  uint64_t low = word_of(key), high = word_of(key + 8);
  uint64_t v[4] = {low ^ UINT64_C(0x736f6d6570736575), high ^ UINT64_C(0x646f72616e646f6d),
                   low ^ UINT64_C(0x6c7967656e657261), high ^ UINT64_C(0x7465646279746573)};
  sip_word(v, number);
  sip_word(v, UINT64_C(8) << 56); /* the message is eight bytes long */
  v[2] ^= 0xff;
  sip_rounds(v, 4);
  return v[0] ^ v[1] ^ v[2] ^ v[3];
}

/* Writes the lowest bits of a value, five to a sign, the highest first. */
static void put_signs(char *to, uint64_t value, int count) {
  for (int i = count - 1; i >= 0; i--, value >>= 5)
    to[i] = signs[value & 31];
}

void code_make(code *made, const uint8_t key[CODE_KEY], uint32_t school, uint32_t serial) {
  uint64_t number = (uint64_t)school << 20 | serial;
  char plain[SIGNS];
  put_signs(plain, number, NUMBER_SIGNS);
  put_signs(plain + NUMBER_SIGNS, code_check(key, number) >> (64 - CHECK_BITS), CHECK_SIGNS);
  memset(made, 0, sizeof *made);
  made->school = school;
  made->serial = serial;
  snprintf(made->text, CODE_TEXT, "%.4s-%.4s-%.4s-%.4s", plain, plain + 4, plain + 8, plain + 12);
  made->hash = XXH3_64bits(made->text, CODE_TEXT - 1);
}

/* The number that a sign stands for, or -1. */
static int sign_value(char typed) {
  int sign = toupper((unsigned char)typed);
  if (sign == 'O')
    return 0;
  if (sign == 'I' || sign == 'L')
    return 1;
  const char *found = sign ? strchr(signs, sign) : NULL;
  return found ? (int)(found - signs) : -1;
}

/* The values of the sixteen signs; false if there are fewer, more or others. */
static bool read_signs(uint8_t values[SIGNS], const char *typed) {
  int count = 0;
  for (; *typed; typed++) {
    if (*typed == '-' || *typed == ' ')
      continue;
    int value = sign_value(*typed);
    if (value < 0 || count == SIGNS)
      return false;
    values[count++] = (uint8_t)value;
  }
  return count == SIGNS;
}

static uint64_t value_of(const uint8_t *values, int count) {
  uint64_t value = 0;
  for (int i = 0; i < count; i++)
    value = value << 5 | values[i];
  return value;
}

bool code_read(code *read, const uint8_t key[CODE_KEY], const char *typed) {
  uint8_t values[SIGNS];
  if (!read_signs(values, typed))
    return false;
  uint64_t number = value_of(values, NUMBER_SIGNS);
  if (value_of(values + NUMBER_SIGNS, CHECK_SIGNS) != code_check(key, number) >> (64 - CHECK_BITS))
    return false;
  code_make(read, key, (uint32_t)(number >> 20), (uint32_t)(number & (CODE_SERIALS - 1)));
  return true;
}
