#include "web.h"
#include "answers.h"
#include <arpa/inet.h>
#include <microhttpd.h>
#include <stdlib.h>
#include <string.h>
#include <strings.h>

enum {
  CONNECTIONS = 800,
  THREAD_STACK = 524288,
  CONNECTION_MEMORY = 16384, /* bounds the head of a request */
  IDLE_SECONDS = 15,
  BODY_READ = 65536 /* a longer body is not even read to its end */
};

struct web {
  struct MHD_Daemon *daemon;
};

/* One request while its body comes in. */
typedef struct request {
  size_t length; /* of the whole body, kept or not */
  char body[FORM_BODY + 1];
} request;

static const char *header(struct MHD_Connection *connection, const char *name) {
  return MHD_lookup_connection_value(connection, MHD_HEADER_KIND, name);
}

static bool from_here(struct MHD_Connection *connection) {
  const union MHD_ConnectionInfo *info =
      MHD_get_connection_info(connection, MHD_CONNECTION_INFO_CLIENT_ADDRESS);
  if (!info || info->client_addr->sa_family != AF_INET)
    return false;
  struct sockaddr_in address;
  memcpy(&address, info->client_addr, sizeof address);
  return ntohl(address.sin_addr.s_addr) >> 24 == 127 && !header(connection, "X-Forwarded-For") &&
         !header(connection, "Forwarded");
}

static void add_headers(struct MHD_Response *response, const reply *of, const path *at) {
  MHD_add_response_header(response, "Content-Type", of->type);
  MHD_add_response_header(response, "Content-Security-Policy",
                          "default-src 'none'; style-src 'self'; form-action 'self'; "
                          "base-uri 'none'; frame-ancestors 'none'");
  MHD_add_response_header(response, "X-Content-Type-Options", "nosniff");
  MHD_add_response_header(response, "Referrer-Policy", "no-referrer");
  MHD_add_response_header(response, "Cache-Control", of->lasting ? "max-age=3600" : "no-store");
  if (*of->location)
    MHD_add_response_header(response, "Location", of->location);
  if (of->status == 405)
    MHD_add_response_header(response, "Allow",
                            at->post ? at->get ? "GET, HEAD, POST" : "POST" : "GET, HEAD");
}

static enum MHD_Result send_reply(struct MHD_Connection *connection, reply *of, const path *at) {
  if (of->body.failed) {
    text_drop(&of->body);
    return MHD_NO;
  }
  struct MHD_Response *response =
      MHD_create_response_from_buffer(of->body.length, of->body.chars, MHD_RESPMEM_MUST_FREE);
  if (!response) {
    text_drop(&of->body);
    return MHD_NO;
  }
  add_headers(response, of, at);
  enum MHD_Result queued = MHD_queue_response(connection, of->status, response);
  MHD_destroy_response(response);
  return queued;
}

static bool is_form(struct MHD_Connection *connection) {
  static const char wanted[] = "application/x-www-form-urlencoded";
  const char *type = header(connection, "Content-Type");
  return type && strncasecmp(type, wanted, sizeof wanted - 1) == 0;
}

static void answer_post(portal *of, struct MHD_Connection *connection, request *got, reply *to,
                        const path *at) {
  question asked = {.from_here = from_here(connection)};
  if (got->length > FORM_BODY)
    answer_notice(to, 413, "Too long", "The form that was sent is longer than the portal takes.");
  else if (!is_form(connection))
    answer_notice(to, 415, "Not a form", "The portal takes only what its own forms send.");
  else if (!form_read(&asked.fields, got->body, got->length))
    answer_notice(to, 400, "Not a form of the portal",
                  "The form that was sent could not be read. Please use the portal's own form.");
  else
    at->post(of, &asked, to);
}

static void answer_get(portal *of, struct MHD_Connection *connection, reply *to, const path *at) {
  question asked = {.from_here = from_here(connection)};
  asked.school = MHD_lookup_connection_value(connection, MHD_GET_ARGUMENT_KIND, "school");
  at->get(of, &asked, to);
}

static enum MHD_Result answer_whole(portal *of, struct MHD_Connection *connection, const char *name,
                                    const char *method, request *got) {
  reply to = {.status = 200, .type = "text/html; charset=utf-8"};
  const path *at = path_find(name);
  bool get = strcmp(method, "GET") == 0 || strcmp(method, "HEAD") == 0;
  bool post = strcmp(method, "POST") == 0;
  if (!at)
    answer_notice(&to, 404, "No such page", "There is nothing at this address.");
  else if (get && at->get)
    answer_get(of, connection, &to, at);
  else if (post && at->post)
    answer_post(of, connection, got, &to, at);
  else
    answer_notice(&to, 405, "Not possible here", "This address does not take such a request.");
  return send_reply(connection, &to, at);
}

/* Keeps what fits of a body; a body that goes on beyond all bounds ends the connection. */
static enum MHD_Result take_body(request *got, const char *data, size_t *size) {
  if (got->length < FORM_BODY) {
    size_t room = FORM_BODY - got->length;
    memcpy(got->body + got->length, data, *size < room ? *size : room);
  }
  got->length += *size;
  *size = 0;
  return got->length <= BODY_READ ? MHD_YES : MHD_NO;
}

static enum MHD_Result handle(void *with, struct MHD_Connection *connection, const char *name,
                              const char *method, const char *version, const char *data,
                              size_t *size, void **own) {
  (void)version;
  if (!*own) {
    *own = calloc(1, sizeof(request));
    return *own ? MHD_YES : MHD_NO;
  }
  if (*size)
    return take_body(*own, data, size);
  return answer_whole(with, connection, name, method, *own);
}

static void forget(void *with, struct MHD_Connection *connection, void **own,
                   enum MHD_RequestTerminationCode why) {
  (void)with, (void)connection, (void)why;
  free(*own);
}

/* A thread for each connection, so that a head who waits for the slow list keeps no parent waiting.
 */
web *web_open(portal *of, uint16_t port) {
  web *made = calloc(1, sizeof *made);
  if (!made)
    return NULL;
  struct sockaddr_in address = {.sin_family = AF_INET, .sin_port = htons(port)};
  address.sin_addr.s_addr = htonl(INADDR_LOOPBACK);
  made->daemon = MHD_start_daemon(
      MHD_USE_AUTO | MHD_USE_INTERNAL_POLLING_THREAD | MHD_USE_THREAD_PER_CONNECTION, port, NULL,
      NULL, handle, of, MHD_OPTION_SOCK_ADDR, (struct sockaddr *)&address,
      MHD_OPTION_THREAD_STACK_SIZE, (size_t)THREAD_STACK, MHD_OPTION_CONNECTION_LIMIT,
      (unsigned)CONNECTIONS, MHD_OPTION_CONNECTION_MEMORY_LIMIT, (size_t)CONNECTION_MEMORY,
      MHD_OPTION_CONNECTION_TIMEOUT, (unsigned)IDLE_SECONDS, MHD_OPTION_NOTIFY_COMPLETED, forget,
      NULL, MHD_OPTION_END);
  if (made->daemon)
    return made;
  free(made);
  return NULL;
}

uint16_t web_port(const web *of) {
  const union MHD_DaemonInfo *info = MHD_get_daemon_info(of->daemon, MHD_DAEMON_INFO_BIND_PORT);
  return info ? info->port : 0;
}

void web_close(web *of) {
  MHD_stop_daemon(of->daemon);
  free(of);
}
