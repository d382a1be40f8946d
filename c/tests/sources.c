/* sources: descriptors that are associated with ports, be they pipes, sockets, files or a terminal, until they are closed. */
#define _GNU_SOURCE 1
#include "test.h"

#include <poll.h>
#include <port.h>
#include <sys/socket.h>

static struct timespec none, long_time = { 50, 0 };

/* One event of this descriptor comes, within the time. */
static void comes(int port, int fd, int events, long user, struct timespec *most)
{
	port_event_t event;
	int answer = port_get(port, &event, most);

	check(answer == 0);
	if (answer == 0 && (event.portev_source != PORT_SOURCE_FD || event.portev_object != (uintptr_t)fd ||
	                    event.portev_events != events || event.portev_user != (void *)user))
		say("wanted descriptor %d, events %d, user %ld; came source %d, %d, %d, %ld", fd, events, user,
		    event.portev_source, (int)event.portev_object, event.portev_events, (long)event.portev_user);
}

static void nothing(int port)
{
	port_event_t event;

	fails(port_get(port, &event, &none), ETIME);
}

static int put(int fd) { return write(fd, "x", 1) == 1; }

static int take(int fd)
{
	char byte;

	return read(fd, &byte, 1) == 1;
}

static int watch(int port, int fd, int events, long user)
{
	return port_associate(port, PORT_SOURCE_FD, (uintptr_t)fd, events, (void *)user);
}

static int unwatch(int port, int fd) { return port_dissociate(port, PORT_SOURCE_FD, (uintptr_t)fd); }

static void refused(int port)
{
	int end[2], file;

	check(pipe(end) == 0);
	fails(watch(99, end[0], POLLIN, 0), EBADF);
	fails(watch(end[1], end[0], POLLIN, 0), EBADF);
	fails(watch(port, 99, POLLIN, 0), EBADFD);
	fails(watch(port, -1, POLLIN, 0), EBADFD);
	fails(unwatch(port, 99), EBADFD);
	fails(unwatch(port, end[0]), ENOENT);
	fails(port_associate(port, PORT_SOURCE_USER, 0, 0, NULL), EINVAL);
	fails(port_associate(port, PORT_SOURCE_FILE, 0, 0, NULL), ENOTSUP);
	/* a port is never ready */
	file = port_create();
	check(watch(port, file, POLLIN, 1) == 0);
	nothing(port);
	check(unwatch(port, file) == 0);
	fails(unwatch(port, file), ENOENT);
	check(close(file) == 0 && close(end[0]) == 0 && close(end[1]) == 0);
}

/* Told once, until it is associated anew; what is there then is told at once. */
static void once(int port)
{
	int end[2];

	check(pipe(end) == 0);
	check(watch(port, end[0], POLLIN, 7) == 0);
	nothing(port);
	check(put(end[1]));
	comes(port, end[0], POLLIN, 7, &none);
	check(put(end[1]));
	nothing(port);
	check(watch(port, end[0], POLLIN, 8) == 0);
	/* anew, while its event is there: that is withdrawn, and comes once with the new value */
	check(watch(port, end[0], POLLIN, 9) == 0);
	comes(port, end[0], POLLIN, 9, &none);
	nothing(port);
	check(take(end[0]) && take(end[0]));
	check(watch(port, end[0], POLLIN, 1) == 0);
	check(unwatch(port, end[0]) == 0);
	check(put(end[1]));
	nothing(port);
	/* an event that is there is withdrawn, too */
	check(watch(port, end[0], POLLIN, 1) == 0);
	check(unwatch(port, end[0]) == 0);
	nothing(port);
	check(watch(port, end[1], POLLOUT, 2) == 0);
	comes(port, end[1], POLLOUT, 2, &none);
	check(take(end[0]) && close(end[1]) == 0);
	check(watch(port, end[0], POLLIN, 3) == 0);
	comes(port, end[0], POLLHUP, 3, &none);
	check(close(end[0]) == 0);
}

/* What is closed is told of no more, nor is what has its number later; and the other end sees the close. */
static void closes(int port)
{
	int one[2], other[2], way;

	for (way = 0; way < 4; way++) {
		check(socketpair(AF_UNIX, SOCK_STREAM, 0, one) == 0 && socketpair(AF_UNIX, SOCK_STREAM, 0, other) == 0);
		check(watch(port, one[0], POLLIN, 1) == 0);
		if (way % 2 == 0)
			check(put(one[1]));
		if (way < 2) {
			check(dup2(other[0], one[0]) == one[0]);
		} else {
			check(close(one[0]) == 0);
			check(fcntl(other[0], F_DUPFD, one[0]) == one[0]);
		}
		check(way % 2 == 0 || !take(one[1]));
		check(put(other[1]));
		nothing(port);
		fails(unwatch(port, one[0]), ENOENT);
		check(watch(port, one[0], POLLIN, 2) == 0);
		comes(port, one[0], POLLIN, 2, &none);
		check(close(one[0]) == 0 && close(one[1]) == 0 && close(other[0]) == 0 && close(other[1]) == 0);
	}
}

/* Two ports ask different things of one descriptor. */
static void twice(int port)
{
	int end[2], other = port_create();

	check(socketpair(AF_UNIX, SOCK_STREAM, 0, end) == 0);
	check(watch(port, end[0], POLLIN, 1) == 0 && watch(other, end[0], POLLOUT, 2) == 0);
	comes(other, end[0], POLLOUT, 2, &none);
	nothing(port);
	check(watch(other, end[0], POLLIN, 3) == 0);
	check(put(end[1]));
	comes(port, end[0], POLLIN, 1, &long_time);
	comes(other, end[0], POLLIN, 3, &long_time);
	check(watch(port, end[0], POLLIN | POLLOUT, 4) == 0);
	comes(port, end[0], POLLIN | POLLOUT, 4, &none);
	/* a port that is closed takes its associations along */
	check(watch(other, end[0], POLLIN, 5) == 0 && close(other) == 0);
	nothing(port);
	check(close(end[0]) == 0 && close(end[1]) == 0);
}

static void files(int port)
{
	int file = open("f", O_RDWR | O_CREAT, 0644), terminal = posix_openpt(O_RDWR | O_NOCTTY), slave;

	check(watch(port, file, POLLIN, 1) == 0);
	comes(port, file, POLLIN, 1, &none);
	check(terminal >= 0 && grantpt(terminal) == 0 && unlockpt(terminal) == 0);
	slave = open(ptsname(terminal), O_RDWR | O_NOCTTY);
	check(slave >= 0 && watch(port, slave, POLLIN, 2) == 0);
	nothing(port);
	check(write(terminal, "x\n", 2) == 2);
	comes(port, slave, POLLIN, 2, &long_time);
	check(close(file) == 0 && close(terminal) == 0 && close(slave) == 0);
}

static int late[2];

static void *put_late(void *unused)
{
	(void)unused;
	wait_for("go");
	check(put(late[1]));
	return NULL;
}

/* A byte that comes while a thread waits at the port. */
static void waits(int port)
{
	pthread_t thread;

	check(pipe(late) == 0);
	check(watch(port, late[0], POLLIN, 5) == 0);
	thread = thread_of(put_late, NULL);
	comes(port, late[0], POLLIN, 5, NULL);
	check(pthread_join(thread, NULL) == 0);
	check(watch(port, late[0], POLLIN, 6) == 0);
	comes(port, late[0], POLLIN, 6, NULL);
	check(close(late[0]) == 0 && close(late[1]) == 0);
}

/* More than have room at once; and those that are over make room. */
static void many(int port)
{
	int end[140][2], i, k, told = 0;

	for (k = 0; k < 3; k++) {
		for (i = 0; i < 140; i++) {
			check(pipe(end[i]) == 0);
			if (watch(port, end[i][0], POLLIN, i) == 0)
				told++;
			else
				check(errno == EAGAIN);
		}
		check(told == 127);
		for (i = 0; i < told; i++) {
			check(put(end[i][1]));
			comes(port, end[i][0], POLLIN, i, &none);
		}
		told = 0;
		for (i = 0; i < 140; i++)
			check(close(end[i][0]) == 0 && close(end[i][1]) == 0);
	}
}

/* A child that is forked has neither associations nor their events. */
static void forks(int port)
{
	int end[2];
	pid_t child;

	check(pipe(end) == 0 && watch(port, end[0], POLLIN, 1) == 0);
	child = fork();
	if (child == 0) {
		check(close(end[0]) == 0);
		check(put(end[1]));
		exit(0);
	}
	check(end_of(child) == 0);
	comes(port, end[0], POLLIN, 1, &long_time);
	check(close(end[0]) == 0 && close(end[1]) == 0);
}

int main(int count, char **words)
{
	int port = port_create();

	check(port >= 0);
	if (count > 1 && strcmp(words[1], "wait") == 0) {
		waits(port);
	} else if (count > 1) {
		many(port);
	} else {
		refused(port);
		once(port);
		closes(port);
		twice(port);
		files(port);
		forks(port);
	}
	say("done");
	return 0;
}
