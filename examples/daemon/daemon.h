/* What main.c and bus.c share. A process is one daemon, so that what it has stands in variables. */
#ifndef DAEMON_H
#define DAEMON_H

#define _GNU_SOURCE
#include "fulwethi_service.h"
#include <errno.h>
#include <poll.h>
#include <stdlib.h>
#include <string.h>
#include <unistd.h>

/* In ms: after RETRY what found no memory, or no place in the interface's queue, is tried again; each LOOK an interface that is down is looked for. */
enum { MOST_STATIONS = 32, RETRY = 10, LOOK = 250 };

/* What is said on standard error, each once a second at most. */
enum warning { DROPPED, BUS_OFF, RESTARTED, OVERRUN, NO_ECHO, WENT_DOWN, CAME_UP, QUEUE_FULL, CONFLICT, NO_MEMORY, WARNINGS };

extern const char *interface;
extern struct fulwethi_service service;
extern uint8_t addresses[MOST_STATIONS];
extern size_t station_count;
extern uint64_t now; /* the tick of this turn */
void wake(uint64_t tick);
int is_later(uint32_t code);
void warn(enum warning which, const char *what);

int bus_open(void);
void bus_receive(void);
void bus_transmit(void);
int bus_wait(void);

#endif
