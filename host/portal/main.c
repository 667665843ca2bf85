/* The front page server of the closure portal.
**
**   portal serve LIST [PORT [START_POWER FINGERPRINT REGIME]]   PORT 0 is any free port
**   portal school LIST NUMBER NAME                              adds or renames a school
**   portal issue LIST SCHOOL COUNT                              prints new codes of a school
**
** LIST is the file of the slow list. The night job runs at three o'clock, and on SIGUSR1. */
#include "web.h"
#include <errno.h>
#include <fcntl.h>
#include <limits.h>
#include <signal.h>
#include <stdio.h>
#include <stdlib.h>
#include <string.h>
#include <sys/file.h>
#include <time.h>

enum { NIGHT_HOUR = 3 };

static const char usage[] = "usage: portal serve LIST [PORT [START_POWER FINGERPRINT REGIME]]\n"
                            "       portal school LIST NUMBER NAME\n"
                            "       portal issue LIST SCHOOL COUNT\n";

static bool read_between(const char *digits, unsigned long least, unsigned long most,
                         uint32_t *number) {
  char *end = NULL;
  errno = 0;
  unsigned long value = strtoul(digits, &end, 10);
  *number = (uint32_t)value;
  return *digits >= '0' && *digits <= '9' && *end == 0 && errno == 0 && value >= least &&
         value <= most;
}

static time_t seconds_to_night(void) {
  time_t now = time(NULL);
  struct tm parts;
  localtime_r(&now, &parts);
  parts.tm_mday += parts.tm_hour >= NIGHT_HOUR;
  parts.tm_hour = NIGHT_HOUR;
  parts.tm_min = parts.tm_sec = 0;
  parts.tm_isdst = -1;
  time_t night = mktime(&parts);
  return night > now ? night - now : 1;
}

/* Waits for the night and for signals, until one asks to stop. */
static void keep_on(portal *of, const sigset_t *signals) {
  for (;;) {
    struct timespec wait = {.tv_sec = seconds_to_night()};
    int signal = sigtimedwait(signals, NULL, &wait);
    if (signal == SIGTERM || signal == SIGINT)
      return;
    if (signal == SIGUSR1 || (signal < 0 && errno == EAGAIN))
      portal_night(of);
  }
}

/* One server to a list: a second one would spend codes that the first one's filter never sees. The
** lock ends with the process. */
static bool only_server(const char *list) {
  char name[PATH_MAX];
  int length = snprintf(name, sizeof name, "%s.lock", list);
  int file =
      length > 0 && length < (int)sizeof name ? open(name, O_RDWR | O_CREAT | O_CLOEXEC, 0600) : -1;
  if (file >= 0 && flock(file, LOCK_EX | LOCK_NB) == 0)
    return true;
  fprintf(stderr, "portal: %s: can't be had, or another server has it\n", list);
  return false;
}

static int serve(const char *list, uint16_t port, keeper_settings settings) {
  static portal of;
  sigset_t signals;
  sigemptyset(&signals);
  sigaddset(&signals, SIGTERM);
  sigaddset(&signals, SIGINT);
  sigaddset(&signals, SIGUSR1);
  pthread_sigmask(SIG_BLOCK, &signals, NULL); /* before any thread, so that all inherit it */
  signal(SIGPIPE, SIG_IGN);
  if (!only_server(list) || !portal_open(&of, list, settings))
    return 1;
  web *site = web_open(&of, port);
  if (!site) {
    fprintf(stderr, "portal: port %u can't be had\n", (unsigned)port);
    portal_close(&of);
    return 1;
  }
  printf("portal: http://127.0.0.1:%u/\nportal: office word %s\n", (unsigned)web_port(site),
         of.office_word);
  fflush(stdout);
  keep_on(&of, &signals);
  web_close(site);
  portal_close(&of);
  return 0;
}

static int serve_words(int count, char **words) {
  uint32_t port = 0;
  keeper_settings settings = {10, 11, KJ_REGIME_FIXED}; /* width 12; no void up to 2^20 slots */
  bool good = count < 2 || read_between(words[1], 0, UINT16_MAX, &port);
  if (good && count > 2)
    good = count == 5 && read_between(words[2], 3, 10, &settings.start_power) &&
           read_between(words[3], 3, 15, &settings.fingerprint) &&
           read_between(words[4], 0, 1, &settings.regime);
  if (good)
    return serve(words[0], (uint16_t)port, settings);
  fputs(usage, stderr);
  return 2;
}

static int add_school(slow *list, const char *number_word, const char *name) {
  uint32_t number;
  if (!read_between(number_word, 1, CODE_SCHOOLS - 1, &number) || !*name ||
      strlen(name) >= SCHOOL_NAME) {
    fprintf(stderr, "portal: a school has a number of 1 to %d and a name of 1 to %d bytes\n",
            CODE_SCHOOLS - 1, SCHOOL_NAME - 1);
    return 2;
  }
  return slow_add_school(list, number, name) == SLOW_OK ? 0 : 1;
}

static int issue(slow *list, const char *school_word, const char *count_word) {
  uint32_t number, count, first;
  uint8_t key[CODE_KEY];
  if (!read_between(school_word, 1, CODE_SCHOOLS - 1, &number) ||
      !read_between(count_word, 1, CODE_SERIALS, &count)) {
    fputs(usage, stderr);
    return 2;
  }
  if (slow_key(list, key) != SLOW_OK || slow_issue(list, number, count, &first) != SLOW_OK) {
    fprintf(stderr, "portal: no such school, or no serial numbers left\n");
    return 1;
  }
  for (uint32_t i = 0; i < count; i++) {
    code made;
    code_make(&made, key, number, first + i);
    puts(made.text);
  }
  return 0;
}

int main(int count, char **words) {
  if (count >= 3 && count <= 7 && strcmp(words[1], "serve") == 0)
    return serve_words(count - 2, words + 2);
  bool school = count == 5 && strcmp(words[1], "school") == 0;
  if (!school && !(count == 5 && strcmp(words[1], "issue") == 0)) {
    fputs(usage, stderr);
    return 2;
  }
  slow *list = slow_open(words[2]);
  if (!list)
    return 1;
  int status = school ? add_school(list, words[3], words[4]) : issue(list, words[3], words[4]);
  slow_close(list);
  return status;
}
