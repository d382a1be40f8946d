/* auth_client.c: a call of authd, and what came back. */
#include "auth_client.h"

#include <door.h>
#include <errno.h>
#include <fcntl.h>
#include <limits.h>
#include <stdbool.h>
#include <stddef.h>
#include <stdio.h>
#include <string.h>
#include <sys/mman.h>
#include <unistd.h>

#include "auth_door.h"

enum { TRIES = 3, ROOM = 512 };

static char door_path[PATH_MAX] = "/etc/authd/" AUTH_DOOR;

int auth_use_folder(const char *folder)
{
	int length = snprintf(door_path, sizeof(door_path), "%s/%s", folder, AUTH_DOOR);

	if (length >= 0 && (size_t)length < sizeof(door_path))
		return 0;
	errno = ENAMETOOLONG;
	return -1;
}

/* A plain file, another's door, and one that was revoked are none of authd's. */
static int open_door(void)
{
	int door = open(door_path, O_RDONLY | O_CLOEXEC);
	door_info_t info;

	if (door != -1 && door_info(door, &info) == 0 && info.di_data == AUTH_COOKIE &&
	    (info.di_attributes & DOOR_REVOKED) == 0)
		return door;
	if (door != -1)
		(void)close(door);
	errno = ECONNREFUSED;
	return -1;
}

/* What came with the results is ours, wanted or not: one descriptor is kept, where it is to be. */
static int take_descriptor(const door_arg_t *arg, bool is_granted)
{
	int taken = -1;
	uint_t i;

	for (i = 0; i < arg->desc_num; i++) {
		const door_desc_t *descriptor = &arg->desc_ptr[i];

		if ((descriptor->d_attributes & DOOR_DESCRIPTOR) == 0)
			continue;
		if (is_granted && taken == -1)
			taken = descriptor->d_data.d_desc.d_descriptor;
		else
			(void)close(descriptor->d_data.d_desc.d_descriptor);
	}
	if (taken != -1)
		(void)fcntl(taken, F_SETFD, FD_CLOEXEC);
	return taken;
}

static int unpack(const door_arg_t *arg)
{
	static const int error_of[] = {
		[AUTH_GRANTED] = EPROTO,
		[AUTH_UNKNOWN] = ENOENT,
		[AUTH_DENIED] = EACCES,
		[AUTH_BUSY] = EBUSY,
	};
	auth_reply_t reply = { .status = AUTH_FAILED, .error = EPROTO };
	int taken;

	if (arg->data_size == sizeof(reply))
		(void)memcpy(&reply, arg->data_ptr, sizeof(reply));
	taken = take_descriptor(arg, reply.status == AUTH_GRANTED);
	if (taken == -1)
		errno = reply.status < AUTH_FAILED ? error_of[reply.status] : reply.error;
	return taken;
}

static int call(int door, auth_request_t *request)
{
	char buffer[ROOM];
	door_arg_t arg = {
		.data_ptr = (char *)request,
		.data_size = offsetof(auth_request_t, name) + strlen(request->name) + 1,
		.rbuf = buffer,
		.rsize = sizeof(buffer),
	};
	int taken, error;

	if (door_call(door, &arg) == -1)
		return -1;
	taken = unpack(&arg);
	error = errno;
	if (arg.rbuf != buffer)
		(void)munmap(arg.rbuf, arg.rsize);
	errno = error;
	return taken;
}

/* EBADF is a daemon that has ended: its door stays attached, until another one takes the path over. */
int auth_open(const char *name)
{
	auth_request_t request = { .version = AUTH_VERSION };
	int door, tries, taken, error;

	if (strlen(name) >= sizeof(request.name)) {
		errno = ENOENT;
		return -1;
	}
	(void)strcpy(request.name, name);
	for (tries = 1;; tries++) {
		door = open_door();
		if (door == -1)
			return -1;
		taken = call(door, &request);
		error = errno;
		(void)close(door);
		errno = error == EBADF ? ECONNREFUSED : error;
		if (taken != -1 || error != EBADF || tries == TRIES)
			return taken;
	}
}
