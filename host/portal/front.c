#include "front.h"
#include <stdlib.h>
#include <string.h>

void front_open(front *of) {
  memset(of, 0, sizeof *of);
  pthread_rwlock_init(&of->lock, NULL);
}

void front_close(front *of) {
  free(of->bytes);
  pthread_rwlock_destroy(&of->lock);
}

static uint8_t *bytes_of(const keeper *from) {
  uint8_t *bytes = malloc(4 * from->main_words);
  for (size_t i = 0; bytes && i < from->main_words; i++) {
    uint32_t word = from->main[i];
    bytes[4 * i] = (uint8_t)word;
    bytes[4 * i + 1] = (uint8_t)(word >> 8);
    bytes[4 * i + 2] = (uint8_t)(word >> 16);
    bytes[4 * i + 3] = (uint8_t)(word >> 24);
  }
  return bytes;
}

void front_show(front *of, const keeper *from) {
  uint8_t *bytes = bytes_of(from);
  pthread_rwlock_wrlock(&of->lock);
  uint8_t *old = of->bytes;
  of->bytes = bytes;
  of->length = bytes ? 4 * from->main_words : 0;
  of->k = from->filter.k;
  of->width = kj_width(&from->filter);
  of->believed = bytes != NULL && of->width != 0;
  pthread_rwlock_unlock(&of->lock);
  free(old);
}

void front_doubt(front *of) {
  pthread_rwlock_wrlock(&of->lock);
  of->believed = false;
  pthread_rwlock_unlock(&of->lock);
}

bool front_believed(front *of) {
  pthread_rwlock_rdlock(&of->lock);
  bool believed = of->believed;
  pthread_rwlock_unlock(&of->lock);
  return believed;
}

bool front_says_no(front *of, uint64_t hash) {
  pthread_rwlock_rdlock(&of->lock);
  bool no = of->believed && kj_query_bytes(of->k, of->width, hash, of->bytes, of->length) == KJ_NO;
  pthread_rwlock_unlock(&of->lock);
  return no;
}
