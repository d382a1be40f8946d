/* authd.h: the parts of the daemon, a file each. */
#ifndef AUTHD_H
#define AUTHD_H

#include <stdbool.h>
#include <stddef.h>
#include <sys/types.h>

#include "auth_door.h"

enum { AUTH_FILE_MAX = 256 };

/* a line of the configuration, FOLDER/authd.conf */
typedef struct {
	char name[AUTH_NAME_MAX];
	bool is_log;
	bool is_for_all;
	uid_t uid;
	char file[AUTH_FILE_MAX];
} rule_t;

/* authd_log.c: what the daemon did, a line at a time, into its log and onto the error stream. */
int log_open(const char *path);
void log_close(void);
void log_line(const char *format, ...) __attribute__((format(printf, 1, 2)));

/* authd_rules.c: the rules, which a reload replaces as a whole. -1, with a line in the log: those from before hold. */
int rules_load(const char *path);
auth_status_t rules_find(const char *name, uid_t uid, rule_t *rule);

/*
 * authd_pipes.c: logs that clients have open, each a pipe whose lines go into the log's file with the client's pid and
 * uid before them.
 */
int pipes_begin(void);
auth_status_t pipes_open(const rule_t *rule, int folder, pid_t pid, uid_t uid, int *writing);

/* Serves them until a byte is there that a handler sent by pipes_wake, and returns it. */
char pipes_serve(void);
void pipes_wake(char byte);

/* Takes what is in them still. Clients that write later get EPIPE. */
void pipes_end(void);

/* authd_server.c: the door. -1 and errno. */
int server_begin(int folder, const char *path);
void server_end(const char *path);

#endif
