/* libdoor_doors.c: door_create(3C), door_revoke(3C), door_bind(3C), door_info(3C), door_getparam(3C), door_cred(3C) and their kin. */
#include "libdoor.h"

#include <errno.h>
#include <fcntl.h>
#include <string.h>
#include <sys/mman.h>
#include <sys/syscall.h>
#include <unistd.h>

enum {
	CHUNK = 256, /* doors; memory is taken for so many at once */
	CHUNKS = 4096,
	ATTRIBUTES = DOOR_UNREF | DOOR_PRIVATE | DOOR_UNREF_MULTI | DOOR_REFUSE_DESC | DOOR_NO_CANCEL,
};

/* The doors that this process has made, by their numbers, from 1. */
static struct {
	_Atomic uint32_t count;
	struct own_door *_Atomic chunk[CHUNKS];
} own;

struct own_door *own_door(uint32_t number)
{
	struct own_door *chunk = number - 1 < CHUNK * CHUNKS ? atomic_load(&own.chunk[(number - 1) / CHUNK]) : NULL;

	return chunk ? &chunk[(number - 1) % CHUNK] : NULL;
}

/* A number that has no door yet, or 0 and errno. */
static uint32_t new_number(void)
{
	uint32_t number = atomic_fetch_add(&own.count, 1) + 1;
	struct own_door *none = NULL;

	if (number - 1 >= CHUNK * CHUNKS) {
		errno = EMFILE;
		return 0;
	}
	if (atomic_load(&own.chunk[(number - 1) / CHUNK]))
		return number;
	void *chunk = mmap(NULL, CHUNK * sizeof(struct own_door), PROT_READ | PROT_WRITE, MAP_PRIVATE | MAP_ANONYMOUS, -1, 0);
	if (chunk == MAP_FAILED)
		return 0;
	if (!atomic_compare_exchange_strong(&own.chunk[(number - 1) / CHUNK], &none, chunk))
		(void)munmap(chunk, CHUNK * sizeof(struct own_door));
	return number;
}

/* In a forked child: the doors are the parent's. */
void forget_doors(void)
{
	atomic_store(&own.count, 0);
}

static int ask_create(const struct own_door *door, uint32_t number, uint_t attributes, uint32_t *row)
{
	char name[WIRE_NAME];
	size_t size = name_procedure(door->procedure, name, sizeof name);
	struct ask ask;

	if (begin_ask(&ask, KERNEL_OP_CREATE) < 0)
		return -1;
	ask.request->a = attributes;
	ask.request->b = number;
	memcpy(&ask.request->c, &door->procedure, sizeof door->procedure);
	ask.request->d = (uintptr_t)door->cookie;
	memcpy(ask.request->data, name, size);
	ask.request->data_size = (uint32_t)size;
	if (ask_simply(&ask) < 0)
		return -1;
	*row = ask.a;
	return 0;
}

/* A private door's first threads are made with it, by a function of the program's own, door_server_create(3C). */
static void make_first_server(int fd, struct own_door *door)
{
	int error = errno;
	door_info_t info;

	if (has_own_servers() && door_info(fd, &info) == 0) {
		door->info = info;
		atomic_store(&door->has_info, true);
		make_server_for(&info);
	}
	errno = error;
}

EXPORT int door_create(door_server_procedure_t *procedure, void *cookie, uint_t attributes)
{
	uint32_t number, row;

	if (attributes & ~(uint_t)ATTRIBUTES) {
		errno = EINVAL;
		return -1;
	}
	number = new_number();
	struct own_door *door = own_door(number);
	if (!door)
		return -1;
	door->procedure = procedure;
	door->cookie = cookie;
	atomic_store(&door->has_info, false);
	atomic_store_explicit(&door->is_there, true, memory_order_release);
	if (ask_create(door, number, attributes, &row) < 0)
		return -1;
	int fd = new_stand_in(row, O_RDWR | O_CLOEXEC), error = errno;
	if (fd < 0) {
		(void)ask_about(KERNEL_OP_CLOSE, row);
		errno = error;
		return -1;
	}
	if (attributes & DOOR_PRIVATE)
		make_first_server(fd, door);
	return fd;
}

/* door_revoke(3C) closes the descriptor as well. */
EXPORT int door_revoke(int fd)
{
	const struct stand_in it = stand_in_at(fd);

	if (ask_about_descriptor(KERNEL_OP_REVOKE, &it) < 0)
		return -1;
	(void)forget_stand_in(fd);
	(void)syscall(SYS_close, fd);
	return 0;
}

EXPORT int door_bind(int fd)
{
	const struct stand_in it = stand_in_at(fd);

	return ask_about_descriptor(KERNEL_OP_BIND, &it);
}

EXPORT int door_unbind(void)
{
	return ask_about(KERNEL_OP_UNBIND, 0);
}

/* door_info(3C): a file is no door, and nobody is asked about it. */
EXPORT int door_info(int fd, door_info_t *info)
{
	const struct stand_in it = stand_in_at(fd);
	struct ask ask;

	if (fd != DOOR_QUERY && it.row == WIRE_NO_FD) {
		tell_dead(&it);
		errno = EBADF;
		return -1;
	}
	if (!info) {
		errno = EFAULT;
		return -1;
	}
	if (begin_ask(&ask, fd == DOOR_QUERY ? KERNEL_OP_INFO_QUERY : KERNEL_OP_INFO) < 0)
		return -1;
	if (fd != DOOR_QUERY)
		name_descriptor(ask.request, &it);
	if (ask_simply(&ask) < 0)
		return -1;
	memset(info, 0, sizeof *info);
	info->di_target = ask.a != 0 ? (pid_t)ask.a : -1;
	info->di_attributes = ask.b;
	info->di_proc = ask.c;
	info->di_data = ask.d;
	info->di_uniquifier = ask.e;
	return 0;
}

/* What the kernel calls a parameter: false where there is no such one. */
static bool kernel_parameter(int parameter, uint32_t *kernels)
{
	switch (parameter) {
	case DOOR_PARAM_DATA_MAX:
		*kernels = KERNEL_PARAMETER_DATA_MAX;
		return true;
	case DOOR_PARAM_DATA_MIN:
		*kernels = KERNEL_PARAMETER_DATA_MIN;
		return true;
	case DOOR_PARAM_DESC_MAX:
		*kernels = KERNEL_PARAMETER_DESCRIPTORS_MAX;
		return true;
	default:
		errno = EINVAL;
		return false;
	}
}

static int ask_parameter(uint32_t op, int fd, int parameter, uint64_t *value)
{
	const struct stand_in it = stand_in_at(fd);
	struct ask ask;
	uint32_t number;

	if (!kernel_parameter(parameter, &number) || begin_ask(&ask, op) < 0)
		return -1;
	name_descriptor(ask.request, &it);
	ask.request->b = number;
	ask.request->c = *value;
	if (ask_simply(&ask) < 0)
		return -1;
	*value = ask.c;
	return 0;
}

EXPORT int door_getparam(int fd, int parameter, size_t *value)
{
	uint64_t got = 0;

	if (!value) {
		errno = EFAULT;
		return -1;
	}
	if (ask_parameter(KERNEL_OP_GET_PARAMETER, fd, parameter, &got) < 0)
		return -1;
	*value = got;
	return 0;
}

EXPORT int door_setparam(int fd, int parameter, size_t value)
{
	uint64_t put = value;

	return ask_parameter(KERNEL_OP_SET_PARAMETER, fd, parameter, &put);
}

EXPORT int door_cred(door_cred_t *cred)
{
	struct ask ask;

	if (!cred) {
		errno = EFAULT;
		return -1;
	}
	if (begin_ask(&ask, KERNEL_OP_CREDENTIALS) < 0 || ask_simply(&ask) < 0)
		return -1;
	memset(cred, 0, sizeof *cred);
	cred->dc_pid = (pid_t)ask.a;
	cred->dc_euid = ask.b;
	cred->dc_ruid = (uid_t)ask.c;
	cred->dc_egid = (gid_t)ask.d;
	cred->dc_rgid = (gid_t)ask.e;
	return 0;
}
