/*
 * event_loop: a loop over a port as those of event libraries are: port_getn for one event at least and many at most,
 * with no time, none to wait, and some; each socket is associated anew after its event. Three clients send a byte and
 * wait for it to come back. A timer tells the port every millisecond, and each byte sends an event.
 *
 * usage: event_loop ROUNDS
 */
#include "test.h"

#include <poll.h>
#include <port.h>
#include <sys/socket.h>

enum { SOCKETS = 3, LIST = 1024 };

static int port, rounds, here[SOCKETS], there[SOCKETS], echoed[SOCKETS], users, ticks, signals;
static timer_t timer;

static void *send_and_wait(void *which)
{
	int fd = *(int *)which, i;
	char byte;

	for (i = 0; i < rounds; i++) {
		byte = (char)i;
		if (write(fd, &byte, 1) != 1 || read(fd, &byte, 1) != 1 || byte != (char)i) {
			say("round %d: no echo", i);
			break;
		}
	}
	close(fd);
	return NULL;
}

static void watch(int i) { check(port_associate(port, PORT_SOURCE_FD, (uintptr_t)here[i], POLLIN, &here[i]) == 0); }

/* The byte goes back, or the client has gone: whether it goes on. */
static int serve(int i)
{
	char byte;
	ssize_t n = read(here[i], &byte, 1);

	if (n != 1) {
		close(here[i]);
		return 0;
	}
	echoed[i]++;
	check(write(here[i], &byte, 1) == 1);
	check(port_send(port, 1, NULL) == 0);
	watch(i);
	return 1;
}

/* Whether a client has gone. */
static int take(const port_event_t *event)
{
	int i;

	if (event->portev_source == PORT_SOURCE_USER) {
		users++;
		/* from time to time a signal ends the next wait */
		if (users % 50 == 0)
			raise(SIGALRM);
		return 0;
	}
	if (event->portev_source == PORT_SOURCE_TIMER) {
		check(event->portev_object == (uintptr_t)timer && event->portev_user == &timer);
		ticks += event->portev_events;
		return 0;
	}
	i = (int)((int *)event->portev_user - here);
	check(event->portev_source == PORT_SOURCE_FD && event->portev_object == (uintptr_t)here[i]);
	check(event->portev_events & POLLIN);
	return !serve(i);
}

static void count_signal(int number)
{
	(void)number;
	signals++;
}

static void loop(void)
{
	static port_event_t list[LIST];
	struct timespec none = { 0, 0 }, some = { 1, 0 };
	struct timespec *most[] = { NULL, &none, &some };
	int open = SOCKETS, turn;
	uint_t count, i;

	for (turn = 0; open > 0; turn++) {
		count = 1;
		if (port_getn(port, list, LIST, &count, most[turn % 3]) != 0 && errno != ETIME && errno != EINTR) {
			say("port_getn: %s", error_name(errno));
			return;
		}
		for (i = 0; i < count; i++)
			open -= take(&list[i]);
	}
}

static void start_timer(void)
{
	port_notify_t to = { port, &timer };
	struct itimerspec every = { { 0, 1000000 }, { 0, 1000000 } };
	struct sigevent how;

	memset(&how, 0, sizeof(how));
	how.sigev_notify = SIGEV_PORT;
	how.sigev_value.sival_ptr = &to;
	check(timer_create(CLOCK_MONOTONIC, &how, &timer) == 0 && timer_settime(timer, 0, &every, NULL) == 0);
}

int main(int count, char **words)
{
	pthread_t thread[SOCKETS];
	int i, pair[2];

	rounds = count > 1 ? atoi(words[1]) : 100;
	signal(SIGALRM, count_signal);
	port = port_create();
	for (i = 0; i < SOCKETS; i++) {
		check(socketpair(AF_UNIX, SOCK_STREAM, 0, pair) == 0);
		here[i] = pair[0];
		there[i] = pair[1];
		watch(i);
	}
	start_timer();
	for (i = 0; i < SOCKETS; i++)
		thread[i] = thread_of(send_and_wait, &there[i]);
	loop();
	check(timer_delete(timer) == 0 && ticks > 0);
	for (i = 0; i < SOCKETS; i++)
		check(pthread_join(thread[i], NULL) == 0 && echoed[i] == rounds);
	check(signals == users / 50);
	say("done");
	return 0;
}
