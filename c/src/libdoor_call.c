/* libdoor_call.c: door_call(3C). */
#include "libdoor.h"

#include <errno.h>
#include <string.h>
#include <sys/mman.h>

/* Where results go: behind the bytes, at the next place that is right for them, stand the descriptors. */
struct room {
	char *at;
	size_t size;      /* of what is at `at` */
	size_t data_size, descriptors; /* and where they begin */
	bool is_mapped;
};

static size_t begin_of_descriptors(const char *at, size_t data_size)
{
	size_t step = _Alignof(door_desc_t), end = (uintptr_t)at + data_size;

	return (end + step - 1) / step * step - (uintptr_t)at;
}

/* The caller's buffer, or where that does not hold the results, memory that the caller unmaps: -1 and errno where there is none. */
static int find_room(struct room *room, const door_arg_t *arg, size_t data_size, unsigned count)
{
	room->at = arg->rbuf;
	room->size = arg->rbuf ? arg->rsize : 0;
	room->data_size = data_size;
	room->descriptors = count > 0 ? begin_of_descriptors(room->at, data_size) : data_size;
	room->is_mapped = room->descriptors + count * sizeof(door_desc_t) > room->size;
	if (!room->is_mapped)
		return 0;
	room->descriptors = count > 0 ? begin_of_descriptors(NULL, data_size) : data_size;
	room->size = room->descriptors + count * sizeof(door_desc_t);
	room->at = mmap(NULL, room->size, PROT_READ | PROT_WRITE, MAP_PRIVATE | MAP_ANONYMOUS, -1, 0);
	if (room->at != MAP_FAILED)
		return 0;
	errno = EOVERFLOW;
	return -1;
}

static void give_room_back(const struct room *room)
{
	int error = errno;

	if (room->is_mapped)
		(void)munmap(room->at, room->size);
	errno = error;
}

static void tell(door_arg_t *arg, const struct room *room, unsigned count)
{
	arg->rbuf = room->at;
	if (room->is_mapped)
		arg->rsize = room->size;
	arg->data_ptr = room->at;
	arg->data_size = room->data_size;
	arg->desc_ptr = count > 0 ? (door_desc_t *)(void *)(room->at + room->descriptors) : NULL;
	arg->desc_num = count;
}

/* The bytes, where there is room for them: -1 and errno where there is none. */
static int take_bytes(const struct ask *ask, const struct came *came, const door_arg_t *arg, struct room *room)
{
	size_t size = came->is_beside ? size_beside(came->beside) : ask->reply->data_size;

	if (came->is_beside && came->beside < 0) {
		errno = EMFILE;
		return -1;
	}
	if (find_room(room, arg, size, came->count) < 0)
		return -1;
	if (came->is_beside && read_beside(came->beside, room->at, size) < 0) {
		give_room_back(room);
		return -1;
	}
	if (!came->is_beside && size > 0)
		memcpy(room->at, ask->reply->data, size);
	return 0;
}

/* They are the program's before a handler that was put off runs, which may jump away. */
static int take_results(struct ask *ask, door_arg_t *arg)
{
	struct room room;
	struct came own, *came = take_came(ask, &own);
	int result = arg ? take_bytes(ask, came, arg, &room) : 0;

	if (arg && result == 0 && came->count > 0 && place_came(came, (door_desc_t *)(void *)(room.at + room.descriptors)) < 0) {
		give_room_back(&room);
		result = -1;
	}
	if (!arg || result < 0) {
		int error = errno;
		end_ask(ask);
		drop_came(came);
		errno = error;
		return result;
	}
	if (came->beside >= 0)
		close_beside(came->beside);
	tell(arg, &room, came->count);
	forget_came(came);
	end_ask(ask);
	return 0;
}

/* door_call(3C): without an argument nothing is passed, and nothing comes. A failure changes nothing of the argument. */
EXPORT int door_call(int fd, door_arg_t *arg)
{
	static const door_arg_t nothing;
	const door_arg_t *in = arg ? arg : &nothing;
	const struct stand_in it = stand_in_at(fd);
	struct ask ask;
	struct sent sent;
	struct kept kept;

	if (begin_ask(&ask, KERNEL_OP_CALL) < 0)
		return -1;
	if (ask.is_borrowed && lend_wait() < 0) {
		give_up_ask(&ask);
		return -1;
	}
	ask.kept = &kept;
	name_descriptor(ask.request, &it);
	ask.request->c = in->rbuf ? in->rsize : 0;
	if (put_message(&ask, &sent, in->data_ptr, in->data_size, in->desc_ptr, in->desc_num) < 0) {
		give_up_ask(&ask);
		return -1;
	}
	if (wait_answer(&ask, AT_CALL) < 0)
		return -1;
	int error = (int)ask.reply->error;
	if (error == 0)
		return take_results(&ask, arg);
	end_ask(&ask);
	errno = error;
	return -1;
}
