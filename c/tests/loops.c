/*
 * loops: event loops over sockets and pipes, by poll(2), select(2) and epoll(7), which call doors as well, while a handler of signals and another
 * thread do so. Each byte comes once and in its order. What poll(2) says of a door's descriptor is looked at besides.
 */
#define _GNU_SOURCE 1
#include "test.h"

#include <poll.h>
#include <sys/epoll.h>
#include <sys/select.h>
#include <sys/socket.h>
#include <sys/time.h>

enum { BYTES = 150, SOURCES = 2 };

static int source[SOURCES], far_end[SOURCES], door;
static volatile sig_atomic_t handled, over;

static void call_it(const char *text)
{
	char request[64], answer[64];
	int error;

	snprintf(request, sizeof(request), "echo %s", text);
	do
		error = ask(door, request, answer, sizeof(answer));
	while (error == EINTR);
	check(error == 0 && strcmp(answer, text) == 0);
}

static void on_signal(int number)
{
	int error = errno;

	(void)number;
	call_it("handler");
	handled++;
	errno = error;
}

static void *other_thread(void *unused)
{
	while (!over)
		call_it("thread");
	return unused;
}

/* Bytes of all sources by turns: 0, 1, 2 and so on in each. */
static void *feed(void *unused)
{
	int i;

	for (i = 0; i < BYTES * SOURCES; i++) {
		unsigned char byte = (unsigned char)(i / SOURCES);

		while (write(far_end[i % SOURCES], &byte, 1) == -1)
			check(errno == EINTR);
		if (i % 16 == 0)
			usleep(1000);
	}
	return unused;
}

/* Which of them are ready, as a set of bits; each way waits for a second at most. */
static int by_poll(void)
{
	struct pollfd all[SOURCES] = { { source[0], POLLIN, 0 }, { source[1], POLLIN, 0 } };

	return poll(all, SOURCES, 1000) <= 0 ? 0 : (all[0].revents & POLLIN ? 1 : 0) | (all[1].revents & POLLIN ? 2 : 0);
}

static int by_ppoll(void)
{
	struct pollfd all[SOURCES] = { { source[0], POLLIN, 0 }, { source[1], POLLIN, 0 } };
	struct timespec second = { 1, 0 };
	sigset_t none;

	sigemptyset(&none);
	return ppoll(all, SOURCES, &second, &none) <= 0 ? 0 : (all[0].revents & POLLIN ? 1 : 0) | (all[1].revents & POLLIN ? 2 : 0);
}

static int by_select(void)
{
	struct timeval second = { 1, 0 };
	fd_set set;

	FD_ZERO(&set);
	FD_SET(source[0], &set);
	FD_SET(source[1], &set);
	if (select((source[0] > source[1] ? source[0] : source[1]) + 1, &set, NULL, NULL, &second) <= 0)
		return 0;
	return (FD_ISSET(source[0], &set) ? 1 : 0) | (FD_ISSET(source[1], &set) ? 2 : 0);
}

static int by_epoll(void)
{
	static int set;
	struct epoll_event came[4];
	int i, count, ready = 0;

	if (set == 0) {
		set = epoll_create1(EPOLL_CLOEXEC);
		for (i = 0; i < SOURCES; i++) {
			struct epoll_event event = { .events = EPOLLIN, .data.fd = i };

			check(epoll_ctl(set, EPOLL_CTL_ADD, source[i], &event) == 0);
		}
	}
	count = epoll_wait(set, came, 4, 1000);
	for (i = 0; i < count; i++)
		ready |= 1 << came[i].data.fd;
	return ready;
}

/* Takes all bytes; for each a door is called. */
static void take_all(int (*wait_for_some)(void))
{
	int i, next[SOURCES] = { 0, 0 };
	pthread_t feeder = thread_of(feed, NULL);

	while (next[0] < BYTES || next[1] < BYTES) {
		int ready = wait_for_some();

		for (i = 0; i < SOURCES; i++) {
			unsigned char byte;

			if ((ready >> i & 1) == 0)
				continue;
			while (read(source[i], &byte, 1) == -1)
				check(errno == EINTR);
			check(byte == (unsigned char)next[i]++);
			call_it("loop");
		}
	}
	pthread_join(feeder, NULL);
}

/* A door's descriptor can be written to, as poll(2) has it, and is never read from, whatever its server does. */
static void of_a_door(void)
{
	struct pollfd it = { door, POLLIN | POLLOUT | POLLPRI, 0 };
	struct epoll_event event = { .events = EPOLLIN | EPOLLOUT }, came;
	int set = epoll_create1(0), copy;
	struct timeval now = { 0, 0 };
	fd_set reads, writes;

	check(poll(&it, 1, 0) == 1 && it.revents == POLLOUT);
	it.events = POLLIN;
	check(poll(&it, 1, 0) == 0);
	FD_ZERO(&reads);
	FD_SET(door, &reads);
	writes = reads;
	check(select(door + 1, &reads, &writes, NULL, &now) == 1 && !FD_ISSET(door, &reads) && FD_ISSET(door, &writes));
	copy = dup(door);
	check(epoll_ctl(set, EPOLL_CTL_ADD, copy, &event) == 0 && epoll_wait(set, &came, 1, 0) == 1 && came.events == EPOLLOUT);
	check(close(copy) == 0 && epoll_wait(set, &came, 1, 0) == 0 && close(set) == 0);
	it.fd = copy;
	check(poll(&it, 1, 0) == 1 && it.revents == POLLNVAL);
}

int main(void)
{
	static int (*const ways[])(void) = { by_poll, by_ppoll, by_select, by_epoll };
	struct itimerval often = { { 0, 3000 }, { 0, 3000 } }, never = { { 0, 0 }, { 0, 0 } };
	int pair[2];
	pthread_t thread;
	size_t i;

	check(pipe(pair) == 0);
	source[0] = pair[0];
	far_end[0] = pair[1];
	check(socketpair(AF_UNIX, SOCK_STREAM, 0, pair) == 0);
	source[1] = pair[0];
	far_end[1] = pair[1];
	door = open("w", O_RDWR);
	of_a_door();
	check(signal(SIGALRM, on_signal) != SIG_ERR && setitimer(ITIMER_REAL, &often, NULL) == 0);
	thread = thread_of(other_thread, NULL);
	for (i = 0; i < sizeof(ways) / sizeof(ways[0]); i++)
		take_all(ways[i]);
	check(setitimer(ITIMER_REAL, &never, NULL) == 0);
	over = 1;
	pthread_join(thread, NULL);
	check(handled > 0);
	say("done");
	return 0;
}
