/*
 * authd_server.c: the door. A call is decided by the ids of the client, which door_cred(3C) tells, and by the rules;
 * never by its word.
 */
#include <door.h>
#include <errno.h>
#include <fcntl.h>
#include <pthread.h>
#include <stdint.h>
#include <string.h>
#include <stropts.h>
#include <unistd.h>

#include "authd.h"

/* Each call holds `ending` for reading while it is decided: the end of the daemon takes it for writing. */
static struct {
	pthread_rwlock_t ending;
	int door, folder;
} server = { .ending = PTHREAD_RWLOCK_INITIALIZER };

/* Not to be led elsewhere, and not to wait for somebody at the other end of a fifo. */
static int open_file(const char *file)
{
	int opened = openat(server.folder, file, O_RDONLY | O_CLOEXEC | O_NOFOLLOW | O_NONBLOCK | O_NOCTTY);

	if (opened != -1)
		(void)fcntl(opened, F_SETFL, 0);
	return opened;
}

static auth_status_t open_resource(const auth_request_t *request, const door_cred_t *cred, int *opened)
{
	rule_t rule;
	auth_status_t status = rules_find(request->name, cred->dc_euid, &rule);

	if (status != AUTH_GRANTED)
		return status;
	if (rule.is_log)
		return pipes_open(&rule, server.folder, cred->dc_pid, cred->dc_euid, opened);
	*opened = open_file(rule.file);
	return *opened == -1 ? AUTH_FAILED : AUTH_GRANTED;
}

/* A request is only read where it is whole: of this version, with a name that ends. */
static void decide(const char *argument, size_t size, auth_reply_t *reply, int *opened)
{
	static const char *const decision[] = { "granted", "unknown", "denied", "busy", "failed" };
	auth_request_t request = { .version = 0 };
	door_cred_t cred;

	reply->status = AUTH_FAILED;
	reply->error = EINVAL;
	if (size <= sizeof(request.version) || size > sizeof(request) || argument[size - 1] != '\0') {
		log_line("a call of %zu bytes is none of ours", size);
		return;
	}
	if (door_cred(&cred) == -1) {
		log_line("a call, and its client has gone");
		return;
	}
	(void)memcpy(&request, argument, size);
	if (request.version == AUTH_VERSION) {
		reply->status = open_resource(&request, &cred, opened);
		reply->error = reply->status == AUTH_FAILED ? errno : 0;
	}
	log_line("%s: %s, process %ld, uid %u%s%s", decision[reply->status], request.name, (long)cred.dc_pid,
	    (unsigned)cred.dc_euid, reply->error == 0 ? "" : ": ", reply->error == 0 ? "" : strerror(reply->error));
}

static void serve_open(void *cookie, char *argument, size_t size, door_desc_t *descriptors, uint_t count)
{
	door_desc_t passed = { .d_attributes = DOOR_DESCRIPTOR | DOOR_RELEASE };
	auth_reply_t reply;
	int opened = -1;

	(void)cookie;
	(void)descriptors;
	(void)count;
	(void)pthread_rwlock_rdlock(&server.ending);
	decide(argument, size, &reply, &opened);
	(void)pthread_rwlock_unlock(&server.ending);
	passed.d_data.d_desc.d_descriptor = opened;
	(void)door_return((char *)&reply, sizeof(reply), &passed, opened != -1);
	/* It is here where the descriptor could not be handed over: the client has none then, or no room for it. */
	reply.status = AUTH_FAILED;
	reply.error = errno;
	log_line("door_return: %s", strerror(errno));
	(void)close(opened);
	(void)door_return((char *)&reply, sizeof(reply), NULL, 0);
}

/* The file is made where it is not there. The door of a daemon that was killed may still be attached to it. */
int server_begin(int folder, const char *path)
{
	int file;

	server.folder = folder;
	server.door = door_create(serve_open, (void *)(uintptr_t)AUTH_COOKIE, DOOR_REFUSE_DESC);
	if (server.door == -1 || door_setparam(server.door, DOOR_PARAM_DATA_MAX, sizeof(auth_request_t)) == -1)
		return -1;
	(void)fdetach(path);
	file = open(path, O_RDWR | O_CREAT | O_CLOEXEC, 0644);
	if (file == -1)
		return -1;
	(void)close(file);
	return fattach(server.door, path);
}

/* Nobody finds the door, or can call it; and what was asked before is decided. */
void server_end(const char *path)
{
	(void)fdetach(path);
	if (door_revoke(server.door) == -1)
		log_line("door_revoke: %s", strerror(errno));
	(void)pthread_rwlock_wrlock(&server.ending);
}
