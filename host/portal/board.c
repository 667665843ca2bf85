#include "board.h"

slow_number board_open(board *of, slow *list) {
  pthread_rwlock_init(&of->lock, NULL);
  return slow_schools(list, of->schools, CODE_SCHOOLS, &of->count);
}

void board_close(board *of) { pthread_rwlock_destroy(&of->lock); }

/* The place of a school; the count of schools if there is none. */
static size_t place_of(const board *of, uint32_t number) {
  size_t place = 0;
  while (place < of->count && of->schools[place].number != number)
    place++;
  return place;
}

bool board_place(board *of, size_t place, school *found) {
  pthread_rwlock_rdlock(&of->lock);
  bool there = place < of->count;
  if (there)
    *found = of->schools[place];
  pthread_rwlock_unlock(&of->lock);
  return there;
}

/* Neither the count nor the numbers change while the server runs, so the place needs no lock. */
bool board_school(board *of, uint32_t number, school *found) {
  return board_place(of, place_of(of, number), found);
}

void board_post(board *of, uint32_t number, status posted, int64_t at) {
  size_t place = place_of(of, number);
  if (place == of->count)
    return;
  pthread_rwlock_wrlock(&of->lock);
  of->schools[place].reported = true;
  of->schools[place].posted = posted;
  of->schools[place].at = at;
  pthread_rwlock_unlock(&of->lock);
}
