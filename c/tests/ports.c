/* ports: event ports that are sent to, alerted, copied, closed, waited at with and without a time, and passed. */
#include "test.h"

#include <port.h>

static struct timespec none, short_time = { 0, 30000000 }, long_time = { 50, 0 };

/* One event comes, at once, and is this one. */
static void comes(int port, int source, int events, long user)
{
	port_event_t event;
	int answer = port_get(port, &event, &none);

	check(answer == 0);
	if (answer == 0 && (event.portev_source != source || event.portev_events != events ||
	                    event.portev_user != (void *)user))
		say("wanted source %d, events %d, user %ld; came %d, %d, %ld", source, events, user, event.portev_source,
		    event.portev_events, (long)event.portev_user);
}

static void sends(int port)
{
	port_event_t event, list[100];
	int ports[20], errors[20], i;
	uint_t count = 0;

	fails(port_get(port, &event, &none), ETIME);
	fails(port_get(port, NULL, &none), EFAULT);
	check(port_send(port, 5, (void *)7) == 0 && port_send(port, -1, NULL) == 0);
	check(port_getn(port, NULL, 0, &count, NULL) == 0 && count == 2);
	comes(port, PORT_SOURCE_USER, 5, 7);
	comes(port, PORT_SOURCE_USER, -1, 0);
	fails(port_send(0, 1, NULL), EBADF);
	fails(port_get(99, &event, NULL), EBADF);
	for (i = 0; i < 20; i++)
		ports[i] = i == 17 ? 99 : port;
	check(port_sendn(ports, errors, 20, 3, (void *)4) == 19);
	for (i = 0; i < 20; i++)
		check(errors[i] == (i == 17 ? EBADF : 0));
	fails(port_sendn(ports, errors, 0, 3, NULL), EINVAL);
	/* more than are there, and than one get may have */
	count = 19;
	check(port_getn(port, list, 100, &count, NULL) == 0 && count == 19 && list[18].portev_events == 3);
	count = 65;
	fails(port_getn(port, list, 100, &count, &none), ENOTSUP);
	count = 3;
	fails(port_getn(port, list, 2, &count, &none), EINVAL);
	check(count == 3);
	for (i = 0; i < 70; i++)
		check(port_send(port, i, NULL) == 0);
	count = 1;
	check(port_getn(port, list, 100, &count, NULL) == 0 && count == 64 && list[63].portev_events == 63);
	count = 1;
	check(port_getn(port, list, 100, &count, NULL) == 0 && count == 6 && list[0].portev_events == 64);
}

static void too_many(void)
{
	int port = port_create(), i;

	for (i = 0; i < 1024; i++)
		check(port_send(port, i, NULL) == 0);
	fails(port_send(port, i, NULL), EAGAIN);
	check(close(port) == 0);
	fails(port_send(port, i, NULL), EBADF);
}

static void times(int port)
{
	port_event_t event, list[8];
	struct timespec wrong = { 0, 1000000000 }, before, after;
	uint_t count = 2;

	fails(port_get(port, &event, &wrong), EINVAL);
	clock_gettime(CLOCK_MONOTONIC, &before);
	fails(port_get(port, &event, &short_time), ETIME);
	clock_gettime(CLOCK_MONOTONIC, &after);
	check((after.tv_sec - before.tv_sec) * 1000000000 + after.tv_nsec - before.tv_nsec >= 30000000);
	/* what is there comes with the error, be there a time or none */
	check(port_send(port, 1, (void *)1) == 0);
	fails(port_getn(port, list, 8, &count, &short_time), ETIME);
	check(count == 1 && list[0].portev_events == 1);
	check(port_send(port, 2, (void *)1) == 0);
	count = 2;
	fails(port_getn(port, list, 8, &count, &none), ETIME);
	check(count == 1 && list[0].portev_events == 2);
	count = 1;
	fails(port_getn(port, list, 8, &count, &none), ETIME);
	check(count == 0);
}

static void alerts(int port)
{
	port_event_t event, list[4];
	uint_t count = 4;

	fails(port_alert(port, 0, 9, NULL), EINVAL);
	fails(port_alert(port, 7, 9, NULL), EINVAL);
	check(port_send(port, 1, NULL) == 0);
	check(port_alert(port, PORT_ALERT_SET, 9, (void *)1) == 0);
	fails(port_alert(port, PORT_ALERT_UPDATE, 8, (void *)2), EBUSY);
	/* it stays, and goes before all events */
	comes(port, PORT_SOURCE_ALERT, 9, 1);
	check(port_getn(port, list, 4, &count, &long_time) == 0 && count == 1);
	check(list[0].portev_source == PORT_SOURCE_ALERT);
	check(port_alert(port, PORT_ALERT_SET, 0, NULL) == 0);
	comes(port, PORT_SOURCE_USER, 1, 0);
	fails(port_get(port, &event, &none), ETIME);
}

static int other;

static void *send_later(void *unused)
{
	(void)unused;
	check(port_send(other, 6, (void *)6) == 0);
	check(port_send(other, 7, (void *)7) == 0);
	return NULL;
}

static void copies(int port)
{
	struct stat found;
	door_info_t info;
	pthread_t thread;
	port_event_t list[3];
	uint_t count = 2;

	other = dup(port);
	check(other >= 0 && fstat(other, &found) == 0 && S_ISPORT(found.st_mode) && !S_ISDOOR(found.st_mode));
	fails(door_info(other, &info), EBADF);
	fails(door_call(other, NULL), EBADF);
	thread = thread_of(send_later, NULL);
	check(port_getn(port, list, 3, &count, &long_time) == 0 && count == 2 && list[1].portev_events == 7);
	check(pthread_join(thread, NULL) == 0);
	check(close(other) == 0);
	fails(port_send(other, 1, NULL), EBADF);
}

/* The last descriptor of a port is closed under who waits there, once the script has seen him wait. */
static void *wait_there(void *unused)
{
	port_event_t event;

	(void)unused;
	fails(port_get(other, &event, NULL), EBADF);
	return NULL;
}

static void closed(void)
{
	pthread_t thread;

	other = port_create();
	thread = thread_of(wait_there, NULL);
	wait_for("go");
	check(close(other) == 0);
	check(pthread_join(thread, NULL) == 0);
}

static volatile int handled;

/* A handler may use ports itself. */
static void handle(int number)
{
	(void)number;
	handled++;
	check(port_send(other, 5, NULL) == 0);
	comes(other, PORT_SOURCE_USER, 5, 0);
}

/* A signal ends a wait, with a time and without one. */
static void interrupted(void)
{
	struct sigaction action;
	port_event_t event, list[3];
	uint_t count = 2;

	memset(&action, 0, sizeof(action));
	action.sa_handler = handle;
	action.sa_flags = SA_RESTART;
	check(sigaction(SIGUSR1, &action, NULL) == 0);
	other = port_create();
	fails(port_get(other, &event, NULL), EINTR);
	check(handled == 1);
	fails(port_getn(other, list, 3, &count, &long_time), EINTR);
	check(handled == 2 && count == 0);
}

static void give_port(void *cookie, char *data, size_t size, door_desc_t *desc, uint_t count)
{
	door_desc_t result;

	(void)cookie, (void)data, (void)size, (void)desc, (void)count;
	memset(&result, 0, sizeof(result));
	result.d_attributes = DOOR_DESCRIPTOR;
	result.d_data.d_desc.d_descriptor = other;
	door_return(NULL, 0, &result, 1);
	say("door_return: %s", error_name(errno));
}

/* A door's results have a port. */
static void passed(void)
{
	char room[256];
	door_arg_t call;
	struct stat found;
	int door = door_create(give_port, NULL, 0), came;

	other = port_create();
	memset(&call, 0, sizeof(call));
	call.rbuf = room;
	call.rsize = sizeof(room);
	if (door_call(door, &call) != 0 || call.desc_num != 1)
		give_up("door_call");
	check(call.desc_ptr->d_attributes == DOOR_DESCRIPTOR);
	came = call.desc_ptr->d_data.d_desc.d_descriptor;
	check(came != other && fstat(came, &found) == 0 && S_ISPORT(found.st_mode));
	check(port_send(came, 8, (void *)8) == 0);
	comes(other, PORT_SOURCE_USER, 8, 8);
	fails(fattach(came, "/"), EINVAL);
}

int main(int count, char **words)
{
	int port;

	if (count > 1 && strcmp(words[1], "close") == 0) {
		closed();
	} else if (count > 1 && strcmp(words[1], "signal") == 0) {
		interrupted();
	} else if (count > 1) {
		passed();
	} else {
		port = port_create();
		check(port >= 0 && fcntl(port, F_GETFD) == FD_CLOEXEC);
		sends(port);
		too_many();
		times(port);
		alerts(port);
		copies(port);
	}
	say("done");
	return 0;
}
