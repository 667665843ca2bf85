/* The board: each school's last status, as the page shows it. A copy of the slow list in memory,
** so that parents who refresh the page never wait for the list. */
#ifndef PORTAL_BOARD_H
#define PORTAL_BOARD_H

#include "slow.h"
#include <pthread.h>

typedef struct board {
  pthread_rwlock_t lock;
  size_t count;
  school schools[CODE_SCHOOLS];
} board;

/* Reads the schools and their last statuses. */
slow_number board_open(board *of, slow *list);
void board_close(board *of);

/* A copy of one school by its number; false if there is none. */
bool board_school(board *of, uint32_t number, school *found);
/* A copy of the school at a place, from 0 on; false behind the last. */
bool board_place(board *of, size_t place, school *found);

void board_post(board *of, uint32_t number, status posted, int64_t at);

#endif
