/* nsc_client.c: the door of nscd as its clients use it, and look-ups by it or in the files. */
#include "nsc_client.h"

#include <door.h>
#include <errno.h>
#include <fcntl.h>
#include <limits.h>
#include <pthread.h>
#include <stddef.h>
#include <stdio.h>
#include <stdlib.h>
#include <string.h>
#include <sys/mman.h>
#include <time.h>
#include <unistd.h>

#include "nsc_files.h"

enum { TRIES = 3, ROOM = 1024 };

/* One descriptor for all threads. It is closed when the door has gone and no thread is in a call any more. */
static struct {
	pthread_mutex_t lock;
	char folder[PATH_MAX];
	int door;
	door_id_t id;
	unsigned users;
	bool is_gone;
} own = { .lock = PTHREAD_MUTEX_INITIALIZER, .folder = "/etc", .door = -1 };

static _Thread_local bool was_cached;

int nsc_use_folder(const char *folder)
{
	if (strlen(folder) >= sizeof(own.folder))
		return ENAMETOOLONG;
	(void)strcpy(own.folder, folder);
	return 0;
}

bool nsc_was_cached(void)
{
	return was_cached;
}

/* A file that is no door, another's door and one that was revoked are none of nscd's. */
static bool is_nscd(int door, door_id_t *id)
{
	door_info_t info;

	if (door_info(door, &info) == -1 || info.di_data != NSC_COOKIE)
		return false;
	*id = info.di_uniquifier;
	return (info.di_attributes & DOOR_REVOKED) == 0;
}

static void open_door(void)
{
	char path[PATH_MAX];

	if (nsc_path(path, sizeof(path), own.folder, NSC_DOOR) == -1)
		return;
	own.door = open(path, O_RDONLY | O_CLOEXEC);
	own.is_gone = false;
	if (own.door != -1 && !is_nscd(own.door, &own.id)) {
		(void)close(own.door);
		own.door = -1;
		errno = EBADF;
	}
}

/*
 * The program may have closed the descriptor, as those do that close all that they did not open, and have something else under its number:
 * so it is looked at before each call, and forgotten, not closed, where it is no longer the door that was opened.
 */
static int take_door(void)
{
	door_id_t id = 0;
	int door;

	(void)pthread_mutex_lock(&own.lock);
	if (own.door != -1 && !own.is_gone && !is_nscd(own.door, &id)) {
		if (id == own.id)
			own.is_gone = true;
		else
			own.door = -1;
	}
	if (own.is_gone && own.users == 0 && own.door != -1) {
		(void)close(own.door);
		own.door = -1;
	}
	if (own.door == -1)
		open_door();
	door = own.is_gone ? -1 : own.door;
	if (door != -1)
		own.users++;
	(void)pthread_mutex_unlock(&own.lock);
	return door;
}

static void give_door(int door, bool is_gone)
{
	(void)pthread_mutex_lock(&own.lock);
	own.users--;
	if (is_gone && door == own.door)
		own.is_gone = true;
	(void)pthread_mutex_unlock(&own.lock);
}

/* What came lies in our buffer, or, where it did not fit, in memory that was mapped for it. */
static int unpack(const door_arg_t *arg, char **results, size_t *size)
{
	nsc_reply_t reply;

	if (arg->data_size < sizeof(reply)) {
		errno = EPROTO;
		return -1;
	}
	(void)memcpy(&reply, arg->data_ptr, sizeof(reply));
	if (reply.size != arg->data_size - sizeof(reply)) {
		errno = EPROTO;
		return -1;
	}
	*size = reply.size;
	*results = malloc(*size + 1);
	if (*results == NULL)
		return -1;
	(void)memcpy(*results, arg->data_ptr + sizeof(reply), *size);
	(*results)[*size] = '\0';
	return (int)reply.status;
}

/* One try. */
static int call_once(nsc_request_t *request, char **results, size_t *size)
{
	char buffer[ROOM];
	door_arg_t arg = {
		.data_ptr = (char *)request,
		.data_size = offsetof(nsc_request_t, key) + strlen(request->key) + 1,
		.rbuf = buffer,
		.rsize = sizeof(buffer),
	};
	int door = take_door(), status, error;

	if (door == -1)
		return -1;
	status = door_call(door, &arg);
	error = errno;
	give_door(door, status == -1 && error == EBADF);
	if (status == 0) {
		status = unpack(&arg, results, size);
		error = errno;
		if (arg.rbuf != buffer)
			(void)munmap(arg.rbuf, arg.rsize);
	}
	errno = error;
	return status;
}

/*
 * EINTR is a signal of ours, or the end of the server's thread; EBADF a daemon that has ended, and that may have been started anew; EAGAIN
 * want of something, which may pass. A look-up changes nothing, so it may be made again.
 */
static bool may_try_again(int error)
{
	static const struct timespec between = { .tv_nsec = 5000000 };

	if (error == EAGAIN)
		(void)nanosleep(&between, NULL);
	return error == EINTR || error == EBADF || error == EAGAIN;
}

int nsc_call(nsc_call_t call, const char *key, char **results, size_t *size)
{
	nsc_request_t request = { .version = NSC_VERSION, .call = call };
	int tries, status;

	if (strlen(key) >= sizeof(request.key)) {
		errno = EINVAL;
		return -1;
	}
	(void)strcpy(request.key, key);
	for (tries = 1;; tries++) {
		status = call_once(&request, results, size);
		if (status != -1 || tries == TRIES || !may_try_again(errno))
			return status;
	}
}

/* 1 and the line, which the caller frees; 0 where there is none; -1 and errno. */
static int find_line(nsc_call_t call, const char *key, char **line)
{
	size_t size;
	int status = nsc_call(call, key, line, &size);

	was_cached = status == NSC_SUCCESS || status == NSC_NOTFOUND;
	if (status == NSC_SUCCESS)
		return 1;
	if (status != -1)
		free(*line);
	return was_cached ? 0 : nsc_file_line(own.folder, call, key, line);
}

/* Cuts the text at each colon. False where it does not have so many fields. */
static bool cut_fields(char *text, char **field, unsigned count)
{
	unsigned i;

	for (i = 0; i < count; i++) {
		field[i] = text;
		text = strchr(text, ':');
		if ((text == NULL) != (i == count - 1))
			return false;
		if (text != NULL)
			*text++ = '\0';
	}
	return true;
}

static bool to_number(const char *text, unsigned *number)
{
	char *end;
	unsigned long value;

	errno = 0;
	value = strtoul(text, &end, 10);
	*number = (unsigned)value;
	return *text >= '0' && *text <= '9' && *end == '\0' && errno == 0 && value <= UINT32_MAX;
}

static int fill_passwd(struct passwd *entry, char *text)
{
	char *field[7];
	unsigned uid, gid;

	if (!cut_fields(text, field, 7) || !to_number(field[2], &uid) || !to_number(field[3], &gid))
		return EINVAL;
	(void)memset(entry, 0, sizeof(*entry));
	entry->pw_name = field[0];
	entry->pw_passwd = field[1];
	entry->pw_uid = uid;
	entry->pw_gid = gid;
	entry->pw_gecos = field[4];
	entry->pw_dir = field[5];
	entry->pw_shell = field[6];
	return 0;
}

/* The members' names stay in the text; pointers to them lie behind it. */
static int fill_group(struct group *entry, char *text, char *end)
{
	char *field[4], *name, *rest = NULL, *behind = text + strlen(text) + 1;
	size_t gap = (sizeof(char *) - (uintptr_t)behind % sizeof(char *)) % sizeof(char *), room, count = 0;
	unsigned gid;

	if (!cut_fields(text, field, 4) || !to_number(field[2], &gid))
		return EINVAL;
	room = (size_t)(end - behind) > gap ? ((size_t)(end - behind) - gap) / sizeof(char *) : 0;
	(void)memset(entry, 0, sizeof(*entry));
	entry->gr_name = field[0];
	entry->gr_passwd = field[1];
	entry->gr_gid = gid;
	entry->gr_mem = (char **)(void *)(behind + gap);
	for (name = strtok_r(field[3], ",", &rest); name != NULL && count < room; name = strtok_r(NULL, ",", &rest))
		entry->gr_mem[count++] = name;
	if (count == room)
		return ERANGE;
	entry->gr_mem[count] = NULL;
	return 0;
}

/* The line in the caller's buffer. 1, 0 where there is none, or -1 and errno. */
static int copy_line(nsc_call_t call, const char *key, char *buffer, size_t size)
{
	char *line;
	int found = find_line(call, key, &line);

	if (found != 1)
		return found;
	if (strlen(line) < size) {
		(void)strcpy(buffer, line);
	} else {
		errno = ERANGE;
		found = -1;
	}
	free(line);
	return found;
}

static int get_passwd(nsc_call_t call, const char *key, struct passwd *entry, char *buffer, size_t size, struct passwd **result)
{
	int found = copy_line(call, key, buffer, size), error;

	*result = NULL;
	if (found != 1)
		return found == 0 ? 0 : errno;
	error = fill_passwd(entry, buffer);
	if (error == 0)
		*result = entry;
	return error;
}

static int get_group(nsc_call_t call, const char *key, struct group *entry, char *buffer, size_t size, struct group **result)
{
	int found = copy_line(call, key, buffer, size), error;

	*result = NULL;
	if (found != 1)
		return found == 0 ? 0 : errno;
	error = fill_group(entry, buffer, buffer + size);
	if (error == 0)
		*result = entry;
	return error;
}

int nsc_getpwnam_r(const char *name, struct passwd *entry, char *buffer, size_t size, struct passwd **result)
{
	return get_passwd(NSC_GETPWNAM, name, entry, buffer, size, result);
}

int nsc_getpwuid_r(uid_t uid, struct passwd *entry, char *buffer, size_t size, struct passwd **result)
{
	char key[16];

	(void)snprintf(key, sizeof(key), "%u", (unsigned)uid);
	return get_passwd(NSC_GETPWUID, key, entry, buffer, size, result);
}

int nsc_getgrnam_r(const char *name, struct group *entry, char *buffer, size_t size, struct group **result)
{
	return get_group(NSC_GETGRNAM, name, entry, buffer, size, result);
}

int nsc_getgrgid_r(gid_t gid, struct group *entry, char *buffer, size_t size, struct group **result)
{
	char key[16];

	(void)snprintf(key, sizeof(key), "%u", (unsigned)gid);
	return get_group(NSC_GETGRGID, key, entry, buffer, size, result);
}
