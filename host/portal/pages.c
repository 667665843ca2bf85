#include "pages.h"
#include <string.h>
#include <time.h>

static const struct {
  const char *name, *word, *meaning;
} statuses[STATUS_COUNT] = {
    [STATUS_OPEN] = {"open", "Open", "as usual"},
    [STATUS_CLOSED] = {"closed", "Closed", "all day"},
    [STATUS_LATE] = {"late", "Opens late", "later than usual"},
};

const char *status_word(status of) { return of < STATUS_COUNT ? statuses[of].word : "Unknown"; }

const char *status_name(status of) { return of < STATUS_COUNT ? statuses[of].name : "none"; }

bool status_read(const char *name, status *read) {
  for (int i = 0; i < STATUS_COUNT; i++)
    if (strcmp(statuses[i].name, name) == 0) {
      *read = (status)i;
      return true;
    }
  return false;
}

static struct tm local(int64_t at) {
  struct tm parts = {0};
  time_t seconds = (time_t)at;
  localtime_r(&seconds, &parts);
  return parts;
}

static bool same_day(int64_t at, int64_t now) {
  struct tm one = local(at), other = local(now);
  return one.tm_year == other.tm_year && one.tm_yday == other.tm_yday;
}

void text_time(text *to, int64_t at, int64_t now) {
  char words[64];
  struct tm parts = local(at);
  const char *format = same_day(at, now) ? "today at %H:%M" : "on %A %e %B %Y at %H:%M";
  strftime(words, sizeof words, format, &parts);
  text_add(to, words);
}

static void text_stamp(text *to, int64_t at, int64_t now) {
  char stamp[32];
  struct tm parts = local(at);
  strftime(stamp, sizeof stamp, "%Y-%m-%dT%H:%M:%S%z", &parts);
  text_print(to, "<time datetime=\"%s\">", stamp);
  text_time(to, at, now);
  text_add(to, "</time>");
}

static void head(text *to, const char *title) {
  text_add(to, "<!DOCTYPE html>\n<html lang=\"en\">\n<head>\n<meta charset=\"utf-8\">\n"
               "<meta name=\"viewport\" content=\"width=device-width, initial-scale=1\">\n<title>");
  text_escape(to, title);
  text_add(to, "</title>\n<link rel=\"stylesheet\" href=\"/style.css\">\n</head>\n<body>\n"
               "<header><a class=\"home\" href=\"/\">School closures</a></header>\n<main>\n");
}

static void foot(text *to) {
  text_add(to, "</main>\n<footer><a href=\"/\">All schools</a> <a href=\"/post\">For heads: post a "
               "status</a></footer>\n</body>\n</html>\n");
}

/* A status of an earlier day says nothing about today, and the card says so in words. */
static void card(text *to, const school *of, int64_t now) {
  bool today = of->reported && same_day(of->at, now);
  text_print(to, "<li class=\"card %s\" id=\"school-%u\">\n<h2>",
             today ? status_name(of->posted) : "none", (unsigned)of->number);
  text_escape(to, of->name);
  text_print(to, "</h2>\n<p class=\"state\">%s</p>\n<p class=\"when\">",
             today ? status_word(of->posted) : "No report today");
  if (today)
    text_add(to, "Posted ");
  else if (of->reported)
    text_print(to, "Last report: %s, ", status_word(of->posted));
  if (of->reported)
    text_stamp(to, of->at, now);
  else
    text_add(to, "Nothing posted so far");
  text_add(to, "</p>\n</li>\n");
}

void page_front(text *to, board *from, int64_t now) {
  school each;
  char day[64];
  struct tm parts = local(now);
  head(to, "School closures today");
  strftime(day, sizeof day, "%A %e %B %Y", &parts);
  text_print(to, "<h1>Schools today</h1>\n<p class=\"day\">%s</p>\n<ul class=\"cards\">\n", day);
  for (size_t place = 0; board_place(from, place, &each); place++)
    card(to, &each, now);
  strftime(day, sizeof day, "%H:%M:%S", &parts);
  text_print(to,
             "</ul>\n<p class=\"fresh\">This page shows what was posted up to %s. "
             "<a class=\"button\" href=\"/\">Refresh</a></p>\n",
             day);
  foot(to);
}

static void school_choices(text *to, board *from, uint32_t chosen) {
  school each;
  text_add(to, "<label for=\"school\">School</label>\n<select id=\"school\" name=\"school\" "
               "required>\n<option value=\"\">Choose a school</option>\n");
  for (size_t place = 0; board_place(from, place, &each); place++) {
    text_print(to, "<option value=\"%u\"%s>", (unsigned)each.number,
               each.number == chosen ? " selected" : "");
    text_escape(to, each.name);
    text_add(to, "</option>\n");
  }
  text_add(to, "</select>\n");
}

static void status_choices(text *to, int chosen) {
  text_add(to, "<fieldset>\n<legend>Status</legend>\n");
  for (int i = 0; i < STATUS_COUNT; i++)
    text_print(to,
               "<label class=\"choice\" for=\"status-%s\"><input type=\"radio\" id=\"status-%s\" "
               "name=\"status\" value=\"%s\" required%s> <span><b>%s</b> %s</span></label>\n",
               statuses[i].name, statuses[i].name, statuses[i].name, i == chosen ? " checked" : "",
               statuses[i].word, statuses[i].meaning);
  text_add(to, "</fieldset>\n");
}

static void trouble_box(text *to, const char *trouble) {
  if (!trouble)
    return;
  text_add(to, "<p class=\"trouble\" role=\"alert\"><b>Not posted.</b> ");
  text_add(to, trouble);
  text_add(to, "</p>\n");
}

void page_post(text *to, board *from, const typed *before, const char *trouble) {
  head(to, trouble ? "Not posted" : "Post a status");
  text_add(to, "<h1>Post a status</h1>\n");
  trouble_box(to, trouble);
  text_add(to, "<form method=\"post\" action=\"/post\">\n");
  school_choices(to, from, before->school);
  status_choices(to, before->posted);
  text_add(to, "<label for=\"code\">Code</label>\n<p class=\"hint\" id=\"code-hint\">The next code "
               "on your sheet, four groups of four signs. Each code works once.</p>\n"
               "<input id=\"code\" name=\"code\" required maxlength=\"40\" autocomplete=\"off\" "
               "autocapitalize=\"characters\" spellcheck=\"false\" aria-describedby=\"code-hint\" "
               "value=\"");
  text_escape(to, before->code ? before->code : "");
  text_add(to, "\">\n<button type=\"submit\">Post status</button>\n</form>\n");
  foot(to);
}

void page_posted(text *to, const school *of, int64_t now) {
  head(to, "What parents read now");
  text_add(to, "<h1>What parents read now</h1>\n<ul class=\"cards single\">\n");
  card(to, of, now);
  text_add(to, "</ul>\n<p>The code you used is spent. To change the status, post again with the "
               "next code on your sheet.</p>\n");
  foot(to);
}

static void office_form(text *to, const char *action, const char *title, const char *field) {
  text_print(to, "<h2>%s</h2>\n<form method=\"post\" action=\"/%s\">\n", title, action);
  text_print(to,
             "<label for=\"%s-word\">Office word</label>\n<input id=\"%s-word\" name=\"word\" "
             "type=\"password\" required maxlength=\"40\" autocomplete=\"off\">\n",
             action, action);
  text_add(to, field);
  text_print(to, "<button type=\"submit\">%s</button>\n</form>\n", title);
}

void page_office(text *to, const char *said) {
  head(to, "Office");
  text_add(to, "<h1>Office</h1>\n");
  if (said)
    text_print(to, "<p class=\"said\" role=\"status\">%s</p>\n", said);
  office_form(to, "withdraw", "Withdraw codes",
              "<label for=\"codes\">Codes that must not work any more, one on a line</label>\n"
              "<textarea id=\"codes\" name=\"codes\" rows=\"4\" required></textarea>\n");
  office_form(to, "giveback", "Give a code back",
              "<label for=\"back\">Spent or withdrawn code that is to work once more</label>\n"
              "<input id=\"back\" name=\"code\" required maxlength=\"40\" autocomplete=\"off\">\n");
  office_form(to, "night", "Run the night job", "");
  foot(to);
}

void page_notice(text *to, const char *heading, const char *said) {
  head(to, heading);
  text_print(to, "<h1>%s</h1>\n<p>%s</p>\n", heading, said);
  foot(to);
}
