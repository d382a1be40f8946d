/*
 * nsc_door.h: what nscd and those that ask it say to one another through its door.
 *
 * A call is an nsc_request_t, of which no more is sent than the key needs. Its results are an nsc_reply_t and, behind it, reply.size bytes:
 * for a look-up the line of the file with a null byte at its end, for NSC_STATISTICS an nsc_statistics_t.
 */
#ifndef NSC_DOOR_H
#define NSC_DOOR_H

#include <stdint.h>

/* The files of nscd's folder. */
#define NSC_DOOR "name_service_door"
#define NSC_PID_FILE "nscd.pid"
#define NSC_LOG_FILE "nscd.log"

/* By it a client knows that a door is that of nscd: door_info(3C) tells it as di_data. */
#define NSC_COOKIE 0xdeadbeedU

#define NSC_VERSION 1
#define NSC_KEY_MAX 64

typedef enum {
	NSC_GETPWNAM,
	NSC_GETPWUID,
	NSC_GETGRNAM,
	NSC_GETGRGID,
	NSC_LOOKUPS, /* so many calls are look-ups; those that follow are an administrator's */
	NSC_STATISTICS = NSC_LOOKUPS,
	NSC_INVALIDATE, /* the key is a database, or empty for all */
	NSC_SHUTDOWN
} nsc_call_t;

typedef enum { NSC_PASSWD, NSC_GROUP, NSC_DATABASES } nsc_database_t;

typedef struct {
	uint32_t version;
	uint32_t call;
	char key[NSC_KEY_MAX];
} nsc_request_t;

typedef enum {
	NSC_SUCCESS,
	NSC_NOTFOUND,
	NSC_NOSERVER, /* the server cannot answer this; the client is to look into the file */
	NSC_DENIED
} nsc_status_t;

typedef struct {
	uint32_t status;
	uint32_t size;
} nsc_reply_t;

typedef struct {
	uint32_t entries;
	uint32_t hits;
	uint32_t absent; /* hits that said that there is no such entry */
	uint32_t misses;
	uint32_t expired;
	uint32_t evicted;
} nsc_counts_t;

typedef struct {
	uint32_t pid;
	uint32_t calls;
	uint32_t threads;
	uint32_t busiest; /* so many calls at once, at most */
	nsc_counts_t database[NSC_DATABASES];
} nsc_statistics_t;

#endif
