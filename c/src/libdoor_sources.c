/*
 * libdoor_sources.c: port_associate(3C) and port_dissociate(3C). A descriptor is ready when the system says so: at
 * once, as it is associated; or later, to a thread of the library that sleeps in epoll(7), which does not keep open
 * what the program closes. Who looks at a port without a wait looks at all descriptors himself, so that nothing is
 * missed that has come by then.
 */
#include "libdoor.h"

#include <errno.h>
#include <poll.h>
#include <port.h>
#include <pthread.h>
#include <sys/epoll.h>
#include <sys/syscall.h>
#include <unistd.h>

enum { WORDS = LIBDOOR_DESCRIPTORS / 64, AT_ONCE = 32 };

/* What is associated, by doord's numbers. */
struct source {
	int fd;
	short events;
	bool is_armed;   /* it is to be told when it is ready */
	uint64_t serial; /* doord's */
};

static struct {
	struct source source[WIRE_SOURCES];
	_Atomic uint64_t has[WORDS]; /* a bit for each descriptor that has been associated since it was opened */
	_Atomic unsigned armed;
	bool is_watched; /* the thread is there */
} own;

/* What became ready, and is to be told. */
struct ready {
	unsigned count;
	uint32_t index[WIRE_SOURCES], bits[WIRE_SOURCES];
	uint64_t serial[WIRE_SOURCES];
};

/* By the bare system call, which is no point of cancellation. */
static void look(struct pollfd *file, unsigned files)
{
	static const struct timespec at_once;
	int error = errno;

	if (syscall(SYS_ppoll, file, (unsigned long)files, &at_once, NULL, 0UL) < 0)
		for (unsigned i = 0; i < files; i++)
			file[i].revents = 0;
	errno = error;
}

/* The system tells of this descriptor once, for all that is asked of it. The lock is taken. */
static void arm(int fd)
{
	struct epoll_event event = { .events = EPOLLONESHOT, .data.fd = fd };
	int poller = atomic_load(&connection.poller);
	bool is_any = false;

	for (unsigned i = 0; i < WIRE_SOURCES; i++)
		if (own.source[i].is_armed && own.source[i].fd == fd) {
			event.events |= (uint32_t)(unsigned short)own.source[i].events;
			is_any = true;
		}
	if (is_any && epoll_ctl(poller, EPOLL_CTL_MOD, fd, &event) < 0)
		(void)epoll_ctl(poller, EPOLL_CTL_ADD, fd, &event);
}

static void set_armed(struct source *source, bool is_armed)
{
	if (source->is_armed != is_armed)
		atomic_fetch_add(&own.armed, is_armed ? 1u : -1u);
	source->is_armed = is_armed;
}

/*
 * What is ready, of this descriptor, or of all where it is -1. It stays armed until it is told: another thread that
 * looks meanwhile tells it as well, and doord takes what comes first. The lock is taken.
 */
static void take_ready(int fd, struct ready *ready)
{
	struct pollfd file[WIRE_SOURCES];
	uint32_t index[WIRE_SOURCES];
	unsigned count = 0;

	ready->count = 0;
	for (unsigned i = 0; i < WIRE_SOURCES; i++)
		if (own.source[i].is_armed && (fd < 0 || own.source[i].fd == fd)) {
			index[count] = i;
			file[count++] = (struct pollfd){ .fd = own.source[i].fd, .events = own.source[i].events };
		}
	look(file, count);
	for (unsigned i = 0; i < count; i++) {
		struct source *source = &own.source[index[i]];
		/* what was closed past the library is told no more */
		if (file[i].revents & POLLNVAL)
			set_armed(source, false);
		if (file[i].revents == 0 || (file[i].revents & POLLNVAL))
			continue;
		ready->index[ready->count] = index[i];
		ready->bits[ready->count] = (unsigned short)file[i].revents;
		ready->serial[ready->count++] = source->serial;
	}
}

static void tell_ready(const struct ready *ready)
{
	struct ask ask;

	for (unsigned i = 0; i < ready->count; i++) {
		if (begin_ask(&ask, WIRE_READY) < 0)
			return;
		ask.request->flags |= WIRE_KEEPER;
		ask.request->a = ready->index[i];
		ask.request->b = ready->bits[i];
		ask.request->c = ready->serial[i];
		(void)ask_simply(&ask);
	}
}

/* Of this descriptor, or of all where it is -1, what is ready now is told. */
static void report_of(int fd)
{
	struct ready ready;
	uint64_t mask = take_lock();

	take_ready(fd, &ready);
	give_lock(mask);
	tell_ready(&ready);
	mask = take_lock();
	for (unsigned i = 0; i < ready.count; i++)
		if (own.source[ready.index[i]].serial == ready.serial[i])
			set_armed(&own.source[ready.index[i]], false);
	if (fd >= 0)
		arm(fd);
	give_lock(mask);
}

void report_ready(void)
{
	if (atomic_load(&own.armed) > 0 && is_connected_here())
		report_of(-1);
}

/* The thread that waits for descriptors. It keeps all signals off. */
static void *watch(void *unused)
{
	struct epoll_event event[AT_ONCE];
	long count;

	(void)unused;
	thread.is_of_library = true;
	(void)pthread_setcancelstate(PTHREAD_CANCEL_DISABLE, NULL);
	do {
		count = syscall(SYS_epoll_pwait, atomic_load(&connection.poller), event, AT_ONCE, -1, NULL, 0UL);
		for (long i = 0; i < count; i++)
			report_of(event[i].data.fd);
	} while (count >= 0 || errno == EINTR);
	return NULL;
}

/* 0, or -1 and errno. */
static int start_watcher(void)
{
	uint64_t mask = take_lock();
	int error = 0;

	if (!own.is_watched && atomic_load(&connection.poller) < 0)
		atomic_store(&connection.poller, move_high(epoll_create1(EPOLL_CLOEXEC)));
	if (atomic_load(&connection.poller) < 0)
		error = EAGAIN;
	else if (!own.is_watched)
		error = make_own_thread(watch, NULL);
	own.is_watched = error == 0;
	give_lock(mask);
	if (error != 0)
		errno = EAGAIN;
	return error == 0 ? 0 : -1;
}

/* It is associated: where it was not ready yet, its readiness is waited for. */
static void note_source(uint32_t index, int fd, int events, uint64_t serial, bool is_ready)
{
	uint64_t mask = take_lock();

	if (index < WIRE_SOURCES && serial > own.source[index].serial) {
		struct source *source = &own.source[index];
		source->fd = fd;
		source->events = (short)events;
		source->serial = serial;
		set_armed(source, !is_ready);
		atomic_fetch_or(&own.has[fd / 64], 1ull << fd % 64);
		arm(fd);
	}
	give_lock(mask);
}

static bool is_descriptor(int source, uintptr_t object, int *fd)
{
	static _Atomic int said;

	*fd = object < LIBDOOR_DESCRIPTORS ? (int)object : -1;
	if (source == PORT_SOURCE_FD)
		return true;
	if (source == PORT_SOURCE_FILE)
		say_once(&said, "libdoor: ENOTSUP: PORT_SOURCE_FILE is not built; PORT_SOURCE_FD is");
	errno = source == PORT_SOURCE_FILE ? ENOTSUP : EINVAL;
	return false;
}

/* What stands for one of the kernel, as an item of a request. */
static uint64_t item_of(const struct stand_in *it)
{
	return it->row == WIRE_NO_FD ? WIRE_NO_FD : it->row | (uint64_t)it->pipe << WIRE_PIPE;
}

EXPORT int port_associate(int port, int source, uintptr_t object, int events, void *user)
{
	const struct stand_in it = stand_in_at(port);
	struct pollfd file = { .events = (short)events };
	struct ask ask;

	if (!is_descriptor(source, object, &file.fd))
		return -1;
	const struct stand_in is = stand_in_at(file.fd);
	if (file.fd >= 0 && is.row == WIRE_NO_FD)
		look(&file, 1);
	bool is_open = file.fd >= 0 && !is_kept(file.fd) && !(file.revents & POLLNVAL);
	if (begin_ask(&ask, KERNEL_OP_ASSOCIATE) < 0)
		return -1;
	name_descriptor(ask.request, &it);
	ask.request->b = is_open ? (uint32_t)file.fd : WIRE_NO_FD;
	ask.request->c = (uintptr_t)user;
	ask.request->item[0] = is_open ? (unsigned short)file.revents : 0;
	ask.request->item[1] = item_of(&is);
	ask.request->items = 2;
	if (ask_simply(&ask) < 0)
		return -1;
	if (ask.a == WIRE_NO_FD)
		return 0;
	/* without the thread only those are told of it who look without a wait */
	if (file.revents == 0 && start_watcher() < 0)
		return -1;
	note_source(ask.a, file.fd, events, ask.c, file.revents != 0);
	return 0;
}

EXPORT int port_dissociate(int port, int source, uintptr_t object)
{
	const struct stand_in it = stand_in_at(port);
	struct pollfd file = { .events = 0 };
	struct ask ask;

	if (!is_descriptor(source, object, &file.fd))
		return -1;
	const struct stand_in is = stand_in_at(file.fd);
	if (file.fd >= 0)
		look(&file, 1);
	bool is_open = file.fd >= 0 && !is_kept(file.fd) && !(file.revents & POLLNVAL);
	if (begin_ask(&ask, KERNEL_OP_DISSOCIATE) < 0)
		return -1;
	name_descriptor(ask.request, &it);
	ask.request->b = is_open ? (uint32_t)file.fd : WIRE_NO_FD;
	ask.request->item[0] = item_of(&is);
	ask.request->items = 1;
	return ask_simply(&ask);
}

static bool has_source(int fd)
{
	if (fd < 0 || fd >= LIBDOOR_DESCRIPTORS)
		return false;
	return atomic_load_explicit(&own.has[fd / 64], memory_order_relaxed) >> fd % 64 & 1;
}

/* The first descriptor that has been associated, from this number on, or -1. */
int next_source(int from)
{
	for (int fd = from < 0 ? 0 : from; fd < LIBDOOR_DESCRIPTORS; fd++) {
		if (atomic_load_explicit(&own.has[fd / 64], memory_order_relaxed) >> fd % 64 == 0)
			fd |= 63;
		else if (has_source(fd))
			return fd;
	}
	return -1;
}

/* The program closes it: what is associated with it is so no more. */
void close_source(int fd)
{
	struct ask ask;
	int error = errno;

	if (!has_source(fd) || !is_connected_here())
		return;
	uint64_t mask = take_lock();
	for (unsigned i = 0; i < WIRE_SOURCES; i++)
		if (own.source[i].fd == fd)
			set_armed(&own.source[i], false);
	atomic_fetch_and(&own.has[fd / 64], ~(1ull << fd % 64));
	(void)epoll_ctl(atomic_load(&connection.poller), EPOLL_CTL_DEL, fd, NULL);
	give_lock(mask);
	if (begin_ask(&ask, WIRE_FORGET) == 0) {
		ask.request->flags |= WIRE_KEEPER;
		ask.request->b = (uint32_t)fd;
		(void)ask_simply(&ask);
	}
	errno = error;
}

/* In a forked child, which has the lock: the associations are the parent's. */
void forget_sources(void)
{
	for (unsigned i = 0; i < WIRE_SOURCES; i++)
		own.source[i] = (struct source){ .fd = -1 };
	for (unsigned i = 0; i < WORDS; i++)
		atomic_store(&own.has[i], 0);
	atomic_store(&own.armed, 0);
	own.is_watched = false;
}
