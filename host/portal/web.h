/* The portal on HTTP, by libmicrohttpd, on the loopback address. */
#ifndef PORTAL_WEB_H
#define PORTAL_WEB_H

#include "portal.h"

typedef struct web web;

/* Port 0 is any free port. NULL if the port can't be had. */
web *web_open(portal *of, uint16_t port);
uint16_t web_port(const web *of);
void web_close(web *of);

#endif
