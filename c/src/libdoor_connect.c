/* libdoor_connect.c: the connection to doord. A program that calls no door has none. */
#include "libdoor.h"

#include <errno.h>
#include <fcntl.h>
#include <poll.h>
#include <pthread.h>
#include <stdlib.h>
#include <string.h>
#include <sys/mman.h>
#include <sys/resource.h>
#include <sys/socket.h>
#include <sys/syscall.h>
#include <sys/un.h>
#include <unistd.h>

enum {
	HIGHEST_KEPT = 65000, /* where the descriptors that are kept from the program lie, at most */
	BELOW_LIMIT = 16,     /* and so far below the most that it may have */
};

struct connection connection = { .control = -1, .bell = -1, .poller = -1 };

static struct {
	bool is_remembered;
	char socket[sizeof((struct sockaddr_un *)0)->sun_path];
	_Atomic int said;
} own;

/* The environment is read before a program that clears it can do so. */
__attribute__((constructor)) static void remember_socket(void)
{
	const char *path = own.is_remembered ? NULL : getenv(WIRE_SOCKET);

	if (path && strlen(path) < sizeof own.socket)
		memcpy(own.socket, path, strlen(path) + 1);
	own.is_remembered = true;
}

_Noreturn void broker_is_gone(void)
{
	say("libdoor: doord is gone");
	_exit(LIBDOOR_NO_BROKER);
}

/* Somebody has waited for long. */
void look_for_broker(void)
{
	static const struct timespec at_once;
	struct pollfd control = { .fd = atomic_load(&connection.control), .events = 0 };

	/* the bare system call is no point of cancellation */
	if (syscall(SYS_ppoll, &control, 1UL, &at_once, NULL, 0UL) > 0 && (control.revents & (POLLHUP | POLLERR | POLLNVAL)))
		broker_is_gone();
}

bool is_connected_here(void)
{
	return atomic_load_explicit(&connection.is_open, memory_order_acquire) && atomic_load(&connection.pid) == getpid();
}

/* messages */

/* 0, or -1 and errno, where files cannot go. */
int send_message(const struct wire_message *message, const int *file, unsigned files)
{
	struct iovec bytes = { (void *)(uintptr_t)message, sizeof *message };
	union {
		struct cmsghdr header;
		char room[CMSG_SPACE(WIRE_ITEMS * sizeof(int))];
	} control;
	struct msghdr packet = { .msg_iov = &bytes, .msg_iovlen = 1 };
	ssize_t sent;

	if (files > WIRE_ITEMS) {
		errno = E2BIG;
		return -1;
	}
	if (files > 0) {
		memset(&control, 0, sizeof control);
		packet.msg_control = control.room;
		packet.msg_controllen = CMSG_SPACE(files * sizeof *file);
		control.header.cmsg_level = SOL_SOCKET;
		control.header.cmsg_type = SCM_RIGHTS;
		control.header.cmsg_len = CMSG_LEN(files * sizeof *file);
		memcpy(CMSG_DATA(&control.header), file, files * sizeof *file);
	}
	do
		sent = syscall(SYS_sendmsg, atomic_load(&connection.control), &packet, MSG_NOSIGNAL);
	while (sent < 0 && errno == EINTR);
	if (sent < 0 && (errno == EPIPE || errno == ECONNRESET || errno == ENOTCONN))
		broker_is_gone();
	return sent < 0 ? -1 : 0;
}

/* The welcome, with the area's memory and the bell: -1 and errno, EAGAIN where doord has no room for a word. */
static int receive_welcome(int control, struct wire_message *message, int *file)
{
	struct iovec bytes = { message, sizeof *message };
	union {
		struct cmsghdr header;
		char room[CMSG_SPACE(2 * sizeof(int))];
	} rights;
	struct msghdr packet = { .msg_iov = &bytes, .msg_iovlen = 1, .msg_control = rights.room, .msg_controllen = sizeof rights.room };
	ssize_t got;

	do
		got = syscall(SYS_recvmsg, control, &packet, MSG_CMSG_CLOEXEC);
	while (got < 0 && errno == EINTR);
	struct cmsghdr *header = got == (ssize_t)sizeof *message ? CMSG_FIRSTHDR(&packet) : NULL;
	if (header && header->cmsg_level == SOL_SOCKET && header->cmsg_type == SCM_RIGHTS && header->cmsg_len == CMSG_LEN(2 * sizeof(int)))
		memcpy(file, CMSG_DATA(header), 2 * sizeof *file);
	if (got == (ssize_t)sizeof *message && message->kind == WIRE_WELCOME)
		return 0;
	if (got > 0)
		say_once(&own.said, "libdoor: what listens at the socket is not doord");
	errno = got > 0 ? ENOTSUP : EAGAIN;
	return -1;
}

/* connecting */

/* A descriptor that is kept is moved out of the program's way. */
int move_high(int fd)
{
	struct rlimit limit;
	rlim_t least = HIGHEST_KEPT;

	if (fd < 0)
		return fd;
	if (getrlimit(RLIMIT_NOFILE, &limit) == 0 && limit.rlim_cur < HIGHEST_KEPT + BELOW_LIMIT)
		least = limit.rlim_cur > BELOW_LIMIT ? limit.rlim_cur - BELOW_LIMIT : 0;
	int high = real_fcntl(fd, F_DUPFD_CLOEXEC, (void *)(uintptr_t)least);
	if (high < 0)
		return fd;
	(void)syscall(SYS_close, fd);
	return high;
}

static void close_all(const int *file, unsigned files)
{
	for (unsigned i = 0; i < files; i++)
		if (file[i] >= 0)
			(void)syscall(SYS_close, file[i]);
}

/* The socket, connected; -1 and errno ENOTSUP where nobody is there. */
static int reach_broker(void)
{
	struct sockaddr_un address = { .sun_family = AF_UNIX };

	remember_socket();
	int control = move_high(socket(AF_UNIX, SOCK_SEQPACKET | SOCK_CLOEXEC, 0));
	if (control < 0)
		return -1;
	memcpy(address.sun_path, own.socket, sizeof address.sun_path);
	if (*own.socket && connect(control, (struct sockaddr *)&address, sizeof address) == 0)
		return control;
	const char *why = *own.socket ? "libdoor: doord has ended, or is out of reach for this user" : "libdoor: no doord: run the program under doord(1)";
	close_all(&control, 1);
	say_once(&own.said, why);
	errno = ENOTSUP;
	return -1;
}

static int say_hello(int control, uint32_t token, int *file)
{
	struct wire_message message = { .kind = WIRE_HELLO, .version = WIRE_VERSION, .token = token, .ruid = getuid(), .rgid = getgid() };
	size_t size = strnlen(program_invocation_short_name, sizeof message.name - 1);

	memcpy(message.name, program_invocation_short_name, size);
	/* where it cannot be sent nobody answers, either */
	(void)send(control, &message, sizeof message, MSG_NOSIGNAL);
	if (receive_welcome(control, &message, file) < 0)
		return -1;
	if (message.error != 0) {
		errno = (int)message.error;
		return -1;
	}
	if (file[0] < 0 || file[1] < 0) {
		errno = EMFILE;
		return -1;
	}
	atomic_store(&connection.most, message.a);
	return 0;
}

/* The area lies where it lay before a fork, so that what speaks of it there does so here. */
static int map_area(int memory)
{
	void *place = connection.area;
	void *area = mmap(place, sizeof *connection.area, PROT_READ | PROT_WRITE, MAP_SHARED | (place ? MAP_FIXED : 0), memory, 0);

	if (area == MAP_FAILED)
		return -1;
	connection.area = area;
	return 0;
}

/* A child that is made past fork(2), as by clone(2), has all that its parent has, and may not ask in its name. */
static int make_mark(void)
{
	if (connection.mark)
		return 0;
	void *mark = mmap(NULL, sizeof *connection.mark, PROT_READ | PROT_WRITE, MAP_PRIVATE | MAP_ANONYMOUS, -1, 0);
	if (mark == MAP_FAILED)
		return -1;
	(void)madvise(mark, sizeof *connection.mark, MADV_WIPEONFORK);
	connection.mark = mark;
	return 0;
}

int refuse_child(void)
{
	static _Atomic int said;

	say_once(&said, "libdoor: a process that was made past fork(2) cannot use doors");
	errno = ENOTSUP;
	return -1;
}

/* Connects; whoever calls it has the lock. */
int connect_broker(uint32_t token)
{
	int file[2] = { -1, -1 };
	int control = reach_broker();

	if (control < 0)
		return -1;
	if (say_hello(control, token, file) < 0 || map_area(file[0]) < 0 || make_mark() < 0 || make_thread_key() < 0) {
		int error = errno;
		close_all(file, 2);
		close_all(&control, 1);
		errno = error;
		return -1;
	}
	close_all(file, 1);
	atomic_store(&connection.bell, move_high(file[1]));
	atomic_store(&connection.control, control);
	atomic_store(&connection.pid, getpid());
	atomic_store(connection.mark, true);
	atomic_store_explicit(&connection.is_open, true, memory_order_release);
	tell_alarm();
	wrap_handlers();
	return 0;
}

/* The first request of a process connects it. A thread that was cancelled ends after it, without the lock. */
int open_connection(void)
{
	int state, error;

	(void)real_setcancelstate(PTHREAD_CANCEL_DISABLE, &state);
	uint64_t mask = take_lock();
	int result = atomic_load(&connection.is_open) ? 0 : connect_broker(0);
	error = errno;
	give_lock(mask);
	(void)real_setcancelstate(state, NULL);
	errno = error;
	return result;
}

/* In a forked child: the connection was the parent's, and nothing that is written here may reach the parent's area. */
void disconnect_child(void)
{
	const int anonymous = MAP_PRIVATE | MAP_ANONYMOUS | MAP_FIXED | MAP_NORESERVE;
	int kept[3] = { atomic_load(&connection.control), atomic_load(&connection.bell), atomic_load(&connection.poller) };

	atomic_store(&connection.is_open, false);
	atomic_store(&connection.control, -1);
	atomic_store(&connection.bell, -1);
	atomic_store(&connection.poller, -1);
	atomic_fetch_add(&connection.generation, 1);
	close_all(kept, 3);
	if (mmap(connection.area, sizeof *connection.area, PROT_READ | PROT_WRITE, anonymous, -1, 0) == MAP_FAILED)
		_exit(LIBDOOR_NO_BROKER);
}
