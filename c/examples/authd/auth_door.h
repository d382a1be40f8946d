/*
 * auth_door.h: what authd and its clients say to one another. A call is an auth_request_t, of which no more is sent
 * than the name needs. Its results are an auth_reply_t, and where it is granted one descriptor, which is the client's
 * from then on.
 */
#ifndef AUTH_DOOR_H
#define AUTH_DOOR_H

#include <stdint.h>

/* the door's file in authd's folder */
#define AUTH_DOOR "authd_door"

/* By it a client knows that a door is that of authd: door_info(3C) tells it as di_data. */
#define AUTH_COOKIE 0xa07dU

#define AUTH_VERSION 1
#define AUTH_NAME_MAX 32

typedef struct {
	uint32_t version;
	char name[AUTH_NAME_MAX];
} auth_request_t;

typedef enum {
	AUTH_GRANTED,
	AUTH_UNKNOWN, /* no rule has the name */
	AUTH_DENIED,  /* none that has it is for this user */
	AUTH_BUSY,    /* the process has this log open already */
	AUTH_FAILED   /* reply.error says why */
} auth_status_t;

typedef struct {
	uint32_t status;
	int32_t error;
} auth_reply_t;

#endif
