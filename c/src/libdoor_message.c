/* libdoor_message.c: what goes with calls and returns, and what comes. */
#include "libdoor.h"

#include <errno.h>
#include <fcntl.h>
#include <string.h>
#include <sys/syscall.h>
#include <unistd.h>

/* An item of the message, and `file`, where an ordinary file goes with it. */
static uint64_t item_of(int fd, bool is_released, int *file)
{
	const struct stand_in it = stand_in_at(fd);
	uint64_t released = is_released ? WIRE_RELEASE : 0;

	*file = -1;
	if (it.row != WIRE_NO_FD)
		return it.row | released | (uint64_t)it.pipe << WIRE_PIPE;
	tell_dead(&it);
	if (it.is_dead || is_kept(fd) || real_fcntl(fd, F_GETFD, NULL) < 0)
		return WIRE_NO_FD;
	*file = fd;
	return WIRE_FILE | WIRE_NO_FD | released;
}

/* The same file is not passed twice where it is released; of doors the kernel says so. */
static bool is_passed_twice(const struct sent *sent, const struct wire_request *request, unsigned at)
{
	for (unsigned i = 0; i < at; i++)
		if ((request->item[i] & WIRE_FILE) && sent->fd[i] == sent->fd[at] && (sent->is_released[i] || sent->is_released[at]))
			return true;
	return false;
}

/* The descriptors, and those of ordinary files, of which ask->request->files tells how many. */
static int put_items(struct ask *ask, struct sent *sent, const door_desc_t *desc, unsigned count, int *file)
{
	unsigned files = 0;

	for (unsigned i = 0; i < count; i++) {
		int fd = desc[i].d_data.d_desc.d_descriptor, passed;
		if (!(desc[i].d_attributes & DOOR_DESCRIPTOR)) {
			errno = EINVAL;
			return -1;
		}
		sent->fd[i] = fd;
		sent->is_released[i] = (desc[i].d_attributes & DOOR_RELEASE) != 0;
		ask->request->item[i] = item_of(fd, sent->is_released[i], &passed);
		if (passed >= 0 && is_passed_twice(sent, ask->request, i)) {
			errno = EINVAL;
			return -1;
		}
		if (passed >= 0)
			file[files++] = passed;
	}
	sent->count = count;
	ask->request->items = count;
	ask->request->files = files;
	return 0;
}

/* The bytes, in the request or in a file beside it. Of more than doord takes go so many that the kernel says so. */
static int put_bytes(struct ask *ask, const char *data, size_t size, int *beside)
{
	static _Atomic int said;
	uint32_t most = atomic_load_explicit(&connection.most, memory_order_relaxed);

	if (size > LIBDOOR_DATA && size <= most) {
		ask->request->flags |= WIRE_BESIDE;
		ask->request->files++;
		*beside = write_beside(data, size);
		return *beside < 0 ? -1 : 0;
	}
	if (size > LIBDOOR_DATA) {
		say_once(&said, most > 0 ? "libdoor: E2BIG: a message has at most 16,777,216 bytes"
			: "libdoor: E2BIG: a message of this kernel has at most 4,096 bytes; doord --long takes more");
		size = LIBDOOR_DATA + 1;
	}
	if (size > 0)
		memcpy(ask->request->data, data, size);
	ask->request->data_size = (uint32_t)size;
	return 0;
}

int put_message(struct ask *ask, struct sent *sent, const char *data, size_t size, const door_desc_t *desc, uint_t count)
{
	static _Atomic int said;
	int file[LIBDOOR_PASSED + 2] = { -1 }, *beside = file;

	sent->count = 0;
	ask->sent = sent;
	if ((size > 0 && !data) || (count > 0 && !desc)) {
		errno = EFAULT;
		return -1;
	}
	if (count > LIBDOOR_PASSED) {
		say_once(&said, "libdoor: E2BIG: a message of this kernel has at most 16 descriptors");
		count = LIBDOOR_PASSED + 1;
	}
	/* the file of the bytes is made last: a descriptor that is none does not become one by it */
	if ((count > 0 && put_items(ask, sent, desc, count, file + 1) < 0) || put_bytes(ask, data, size, beside) < 0)
		return -1;
	int result = send_files(ask->index, ask->number, *beside >= 0 ? file : file + 1, ask->request->files);
	if (*beside >= 0)
		close_beside(*beside);
	return result;
}

/* The message has gone: what it releases is no descriptor any more, neither of the kernel nor of the program. */
void release_sent(struct sent *sent)
{
	for (unsigned i = 0; i < sent->count; i++)
		if (sent->is_released[i]) {
			(void)forget_stand_in(sent->fd[i]);
			(void)syscall(SYS_close, sent->fd[i]);
		}
	sent->count = 0;
}

/* The descriptors of an answer, and the file of its bytes where they come so, before it ends. They are in `room`, or noted. */
struct came *take_came(struct ask *ask, struct came *room)
{
	const struct wire_reply *reply = &ask->slot->reply;
	int file[WIRE_REPLY_FILES + 1];
	unsigned files = 0;

	if (ask->is_kept)
		return ask->kept->came;
	room->count = reply->passed;
	room->is_beside = (reply->flags & WIRE_BESIDE) != 0;
	room->beside = -1;
	room->is_noted = false;
	if (reply->passed == 0 && !room->is_beside)
		return room;
	memcpy(room->passed, reply->item, reply->passed * sizeof *reply->item);
	for (unsigned i = 0; i <= WIRE_REPLY_FILES; i++)
		file[i] = -1;
	if (reply->files > 0)
		receive_files(ask->index, ask->number, file, reply->files);
	if (room->is_beside)
		room->beside = file[files++];
	for (unsigned i = 0; i < room->count; i++)
		room->fd[i] = room->passed[i].fd == WIRE_NO_FD ? file[files++] : -1;
	return note_came(room);
}

/* Descriptors of the program for what came: 0, or -1 and EMFILE where one has no room; then what came is to be dropped. */
int place_came(struct came *came, door_desc_t *desc)
{
	for (unsigned i = 0; i < came->count; i++) {
		const struct wire_passed *passed = &came->passed[i];
		if (passed->fd != WIRE_NO_FD)
			came->fd[i] = new_stand_in(passed->fd, O_RDWR | (passed->id == 0 ? STAND_IN_PORT : 0));
		if (came->fd[i] < 0) {
			errno = EMFILE;
			return -1;
		}
		memset(&desc[i], 0, sizeof desc[i]);
		desc[i].d_attributes = DOOR_DESCRIPTOR | passed->attributes;
		desc[i].d_data.d_desc.d_descriptor = came->fd[i];
		desc[i].d_data.d_desc.d_id = passed->id;
	}
	return 0;
}
