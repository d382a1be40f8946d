/*
 * port.h: event ports, as port_create(3C), port_associate(3C), port_get(3C), port_send(3C) and port_alert(3C) have them.
 */
#ifndef _PORT_H
#define _PORT_H

#include <stdint.h>
#include <sys/types.h>
#include <time.h>

#ifdef __cplusplus
extern "C" {
#endif

#ifndef _UINT_T_DEFINED
#define _UINT_T_DEFINED
typedef unsigned int uint_t;
#endif

#define PORT_SOURCE_AIO 1
#define PORT_SOURCE_TIMER 2
#define PORT_SOURCE_USER 3
#define PORT_SOURCE_FD 4
#define PORT_SOURCE_ALERT 5
#define PORT_SOURCE_MQ 6
#define PORT_SOURCE_FILE 7

/* of a struct sigevent: a timer tells a port, and sigev_value.sival_ptr is a port_notify_t. On illumos it is 4, which here is SIGEV_THREAD_ID */
#define SIGEV_PORT 16

#define PORT_ALERT_SET 1
#define PORT_ALERT_UPDATE 2

typedef struct port_event {
	int portev_events;
	unsigned short portev_source;
	unsigned short portev_pad;
	uintptr_t portev_object;
	void *portev_user;
} port_event_t;

typedef struct port_notify {
	int portnfy_port;
	void *portnfy_user;
} port_notify_t;

int port_create(void);
int port_associate(int, int, uintptr_t, int, void *);
int port_dissociate(int, int, uintptr_t);
int port_get(int, port_event_t *, struct timespec *);
int port_getn(int, port_event_t[], uint_t, uint_t *, struct timespec *);
int port_send(int, int, void *);
int port_sendn(int[], int[], uint_t, int, void *);
int port_alert(int, int, int, void *);

#ifdef __cplusplus
}
#endif

#endif
