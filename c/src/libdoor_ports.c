/*
 * libdoor_ports.c: event ports, port_create(3C), port_send(3C), port_alert(3C) and port_get(3C). A wait that has a
 * time is ended in the kernel when that is over, and then what is there is taken without a wait.
 */
#include "libdoor.h"

#include <errno.h>
#include <fcntl.h>
#include <port.h>
#include <string.h>

enum {
	MOST_EVENTS = 64,   /* of one get */
	MOST_PORTS = 16,    /* of one request that sends to many */
	MOST_LIST = 8192,   /* of one port_sendn(3C) */
	MOST_SECONDS = 1000000000,
	SECOND = 1000000000,
};

EXPORT int port_create(void)
{
	struct ask ask;

	if (begin_ask(&ask, KERNEL_OP_PORT_CREATE) < 0 || ask_simply(&ask) < 0)
		return -1;
	int fd = new_stand_in(ask.a, O_RDWR | O_CLOEXEC | STAND_IN_PORT), error = errno;
	if (fd < 0) {
		(void)ask_about(KERNEL_OP_CLOSE, ask.a);
		errno = error;
	}
	return fd;
}

/* sending */

EXPORT int port_send(int port, int events, void *user)
{
	const struct stand_in it = stand_in_at(port);
	struct ask ask;

	if (begin_ask(&ask, KERNEL_OP_SEND) < 0)
		return -1;
	name_descriptor(ask.request, &it);
	ask.request->b = (uint32_t)events;
	ask.request->c = (uintptr_t)user;
	return ask_simply(&ask);
}

/* To as many ports as one request has: how many have the event, or -1 and errno. */
static int send_some(const int *port, int *error, uint_t count, int events, void *user)
{
	uint32_t found[MOST_PORTS] = { 0 };
	struct ask ask;
	int sent = 0;

	if (begin_ask(&ask, KERNEL_OP_SEND_MANY) < 0)
		return -1;
	ask.request->b = (uint32_t)events;
	ask.request->c = (uintptr_t)user;
	for (uint_t i = 0; i < count; i++) {
		const struct stand_in it = stand_in_at(port[i]);
		tell_dead(&it);
		ask.request->item[i] = it.row == WIRE_NO_FD ? WIRE_NO_FD : it.row | (uint64_t)it.pipe << WIRE_PIPE;
	}
	ask.request->items = count;
	if (wait_answer(&ask, AT_REQUEST) < 0)
		return -1;
	int wrong = (int)ask.reply->error;
	memcpy(found, ask.reply->data, ask.reply->data_size < sizeof found ? ask.reply->data_size : sizeof found);
	end_ask(&ask);
	if (wrong != 0) {
		errno = wrong;
		return -1;
	}
	for (uint_t i = 0; i < count; i++) {
		error[i] = (int)found[i];
		sent += found[i] == 0;
	}
	return sent;
}

/* port_sendn(3C): how many ports have the event; of each other one its error. */
EXPORT int port_sendn(int port[], int error[], uint_t count, int events, void *user)
{
	int sent = 0;

	if (count == 0 || count > MOST_LIST) {
		errno = EINVAL;
		return -1;
	}
	if (!port || !error) {
		errno = EFAULT;
		return -1;
	}
	for (uint_t done = 0; done < count;) {
		uint_t some = count - done < MOST_PORTS ? count - done : MOST_PORTS;
		int more = send_some(port + done, error + done, some, events, user);
		if (more < 0)
			return -1;
		sent += more;
		done += some;
	}
	return sent;
}

EXPORT int port_alert(int port, int flags, int events, void *user)
{
	const struct stand_in it = stand_in_at(port);
	struct ask ask;

	if (begin_ask(&ask, KERNEL_OP_ALERT) < 0)
		return -1;
	name_descriptor(ask.request, &it);
	ask.request->b = (uint32_t)events;
	ask.request->c = (uintptr_t)user;
	ask.request->item[0] = flags == PORT_ALERT_SET ? KERNEL_ALERT_SET
		: flags == PORT_ALERT_UPDATE ? KERNEL_ALERT_UPDATE : KERNEL_ALERT_OTHER;
	ask.request->items = 1;
	return ask_simply(&ask);
}

/* getting */

/* What is wanted of a port, and what came. */
struct get {
	uint32_t op;
	uint_t most, least;
	bool waits;
	const struct timespec *end; /* of the wait; NULL: it has none */
	port_event_t *list;
	uint_t count;
	bool is_late; /* nothing came in time */
};

static unsigned short source_of(uint32_t source)
{
	static const unsigned short sources[] = {
		[KERNEL_SOURCE_DESCRIPTOR] = PORT_SOURCE_FD,
		[KERNEL_SOURCE_USER] = PORT_SOURCE_USER,
		[KERNEL_SOURCE_ALERT] = PORT_SOURCE_ALERT,
		[KERNEL_SOURCE_TIMER] = PORT_SOURCE_TIMER,
	};

	return source < sizeof sources / sizeof *sources ? sources[source] : 0;
}

static void take_events(const struct wire_reply *reply, struct get *get)
{
	uint_t count = reply->data_size / (uint_t)sizeof(struct wire_event);

	for (get->count = 0; get->count < count && get->count < get->most; get->count++) {
		struct wire_event event;
		memcpy(&event, reply->data + get->count * sizeof event, sizeof event);
		port_event_t *to = &get->list[get->count];
		to->portev_events = (int)event.events;
		to->portev_source = source_of(event.source);
		to->portev_pad = 0;
		to->portev_object = (uintptr_t)event.object;
		if (event.source == KERNEL_SOURCE_TIMER)
			to->portev_object = timer_told(event.object, event.events);
		to->portev_user = (void *)(uintptr_t)event.user;
	}
	if (reply->kind == KERNEL_ANSWER_AVAILABLE)
		get->count = reply->a;
}

static int ask_get(int port, struct get *get)
{
	const struct stand_in it = stand_in_at(port);
	struct ask ask;
	struct kept kept;

	if (begin_ask(&ask, get->op) < 0)
		return -1;
	ask.kept = &kept;
	ask.end = get->end;
	name_descriptor(ask.request, &it);
	ask.request->b = get->most;
	ask.request->c = get->least;
	ask.request->flags |= (get->waits ? WIRE_WAITS : 0) | (get->waits && get->end ? WIRE_TIMED : 0);
	if (wait_answer(&ask, get->waits ? AT_CALL : AT_REQUEST) < 0)
		return -1;
	int error = (int)ask.reply->error;
	get->is_late = error == EINTR && ask.is_late && !ask.is_kept;
	if (error == 0)
		take_events(ask.reply, get);
	end_ask(&ask);
	if (error == 0)
		return 0;
	errno = error;
	return -1;
}

/* When a wait of this length ends: false where it is none. */
static bool end_of(const struct timespec *most, struct timespec *end)
{
	if (most->tv_nsec < 0 || most->tv_nsec >= SECOND || most->tv_sec < 0) {
		errno = EINVAL;
		return false;
	}
	(void)clock_gettime(CLOCK_MONOTONIC, end);
	end->tv_sec += most->tv_sec < MOST_SECONDS ? most->tv_sec : MOST_SECONDS;
	end->tv_nsec += most->tv_nsec;
	if (end->tv_nsec >= SECOND) {
		end->tv_nsec -= SECOND;
		end->tv_sec++;
	}
	return true;
}

/* Waits no longer than `most`, where that is not NULL. */
static int get_within(int port, struct get *get, const struct timespec *most)
{
	struct timespec end;

	if (most && !end_of(most, &end))
		return -1;
	get->waits = !most || most->tv_sec > 0 || most->tv_nsec > 0;
	get->end = most && get->waits ? &end : NULL;
	if (!get->waits)
		report_ready();
	return ask_get(port, get);
}

EXPORT int port_get(int port, port_event_t *event, struct timespec *most)
{
	struct get get = { .op = KERNEL_OP_GET, .most = 1, .least = 1, .list = event };

	if (!event) {
		errno = EFAULT;
		return -1;
	}
	if (get_within(port, &get, most) == 0)
		return 0;
	if (!get.is_late)
		return -1;
	get.waits = false;
	report_ready();
	return ask_get(port, &get);
}

/* Fewer events are there than were wanted, and the time is over: they are told with the error. */
static int get_the_rest(int port, struct get *get)
{
	uint_t least = get->least;

	get->waits = false;
	get->least = 0;
	report_ready();
	if (ask_get(port, get) < 0)
		return -1;
	bool is_alert = get->count == 1 && get->list[0].portev_source == PORT_SOURCE_ALERT;
	if (get->count >= least || is_alert)
		return 0;
	errno = ETIME;
	return -1;
}

EXPORT int port_getn(int port, port_event_t list[], uint_t most, uint_t *count, struct timespec *time)
{
	static _Atomic int said;

	if (!count || (most > 0 && !list)) {
		errno = EFAULT;
		return -1;
	}
	struct get get = { .op = KERNEL_OP_GET_MANY, .least = *count, .list = list };
	get.most = most < MOST_EVENTS ? most : MOST_EVENTS;
	if (*count > MOST_EVENTS && *count <= most) {
		say_once(&said, "libdoor: ENOTSUP: port_getn waits for at most 64 events at once");
		errno = ENOTSUP;
		return -1;
	}
	int result = get_within(port, &get, time);
	if (result < 0 && (get.is_late || errno == ETIME))
		result = get_the_rest(port, &get);
	if (result == 0 || errno == ETIME || errno == EINTR)
		*count = get.count;
	return result;
}
