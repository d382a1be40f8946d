/* libdoor_files.c: ordinary files that are passed. They go by the control socket, and are there before the word that speaks of them. */
#include "libdoor.h"

#include <errno.h>
#include <fcntl.h>
#include <string.h>
#include <sys/socket.h>
#include <sys/syscall.h>
#include <unistd.h>

/* Files that came for the request of another thread, until it takes them. A slot has one request at a time. */
struct stash {
	uint32_t number;
	unsigned files;
	int file[WIRE_REPLY_FILES];
};

static struct {
	struct stash stash[WIRE_SLOTS];
} own;

int send_files(uint32_t slot, uint32_t number, const int *file, unsigned files)
{
	struct wire_message message = { .kind = WIRE_FILES, .a = slot, .b = number };

	return files == 0 ? 0 : send_message(&message, file, files);
}

static void drop_stash(struct stash *stash)
{
	for (unsigned i = 0; i < stash->files; i++)
		(void)syscall(SYS_close, stash->file[i]);
	stash->files = 0;
}

/* One message, if one is there; what came goes to the stash of its slot. */
static bool receive_one(void)
{
	struct wire_message message;
	struct iovec bytes = { &message, sizeof message };
	union {
		struct cmsghdr header;
		char room[CMSG_SPACE(WIRE_REPLY_FILES * sizeof(int))];
	} control;
	struct msghdr packet = { .msg_iov = &bytes, .msg_iovlen = 1, .msg_control = control.room, .msg_controllen = sizeof control.room };
	struct stash came = { 0 };
	long got;

	do
		got = syscall(SYS_recvmsg, atomic_load(&connection.control), &packet, MSG_DONTWAIT | MSG_CMSG_CLOEXEC);
	while (got < 0 && errno == EINTR);
	if (got <= 0)
		return false;
	struct cmsghdr *header = CMSG_FIRSTHDR(&packet);
	if (header && header->cmsg_level == SOL_SOCKET && header->cmsg_type == SCM_RIGHTS) {
		came.files = (unsigned)((header->cmsg_len - CMSG_LEN(0)) / sizeof(int));
		memcpy(came.file, CMSG_DATA(header), came.files * sizeof(int));
	}
	if (got != (long)sizeof message || message.kind != WIRE_FILES || message.a >= WIRE_SLOTS) {
		drop_stash(&came);
		return true;
	}
	came.number = message.b;
	drop_stash(&own.stash[message.a]);
	own.stash[message.a] = came;
	return true;
}

/* The files of a reply; -1 for each that this process had no room for. */
void receive_files(uint32_t slot, uint32_t number, int *file, unsigned files)
{
	uint64_t mask = take_lock();
	struct stash *stash = &own.stash[slot];

	while (!(stash->files > 0 && stash->number == number) && receive_one())
		continue;
	if (stash->number != number)
		drop_stash(stash);
	for (unsigned i = 0; i < files; i++) {
		file[i] = i < stash->files ? stash->file[i] : -1;
		/* a file that is passed is not closed by exec(2), unless its receiver says so */
		if (file[i] >= 0)
			(void)real_fcntl(file[i], F_SETFD, NULL);
	}
	for (unsigned i = files; i < stash->files; i++)
		(void)syscall(SYS_close, stash->file[i]);
	stash->files = 0;
	give_lock(mask);
}

/* In a forked child: what came was for the parent. */
void forget_files(void)
{
	for (unsigned i = 0; i < WIRE_SLOTS; i++)
		drop_stash(&own.stash[i]);
}
