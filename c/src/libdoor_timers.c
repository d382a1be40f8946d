/*
 * libdoor_timers.c: timer_create(3C) with SIGEV_PORT, and what is asked of such timers. When they tell the kernel
 * counts; how long it is until then, and absolute times, are counted here. All other timers are the system's.
 */
#include "libdoor.h"

#include <errno.h>
#include <limits.h>
#include <port.h>
#include <string.h>

enum { SECOND = 1000000000, MOST_SECONDS = 1000000000 };

/* What the program has for a timer: the kernel's number below, and above what the system's timers do not have. */
#define TIMER_MARK (0x7074ull << 32)

/* By the kernel's numbers. */
static struct {
	_Atomic bool is_there;
	clockid_t clock;
	_Atomic int64_t next, interval; /* in nanoseconds of CLOCK_MONOTONIC; 0: it is not armed, and it tells once */
	_Atomic int overrun;
} own[WIRE_TIMERS];

static bool is_of_port(timer_t timer)
{
	return ((uintptr_t)timer & ~(uintptr_t)UINT32_MAX) == TIMER_MARK;
}

/* The number of one that is there, or -1 and errno. */
static int number_of(timer_t timer)
{
	uint32_t number = (uint32_t)(uintptr_t)timer;

	if (number < WIRE_TIMERS && atomic_load(&own[number].is_there))
		return (int)number;
	errno = EINVAL;
	return -1;
}

static int64_t count(const struct timespec *time)
{
	return (time->tv_sec < MOST_SECONDS ? (int64_t)time->tv_sec : MOST_SECONDS) * SECOND + time->tv_nsec;
}

static int64_t now(clockid_t clock)
{
	struct timespec time;

	(void)clock_gettime(clock, &time);
	return (int64_t)time.tv_sec * SECOND + time.tv_nsec;
}

EXPORT int timer_create(clockid_t clock, struct sigevent *restrict how, timer_t *restrict timer)
{
	struct ask ask;

	if (!how || how->sigev_notify != SIGEV_PORT)
		return real_timer_create(clock, how, timer);
	const port_notify_t *to = how->sigev_value.sival_ptr;
	if (!to || !timer || (clock != CLOCK_REALTIME && clock != CLOCK_MONOTONIC)) {
		errno = !to || !timer ? EFAULT : EINVAL;
		return -1;
	}
	const struct stand_in it = stand_in_at(to->portnfy_port);
	if (begin_ask(&ask, KERNEL_OP_TIMER_CREATE) < 0)
		return -1;
	name_descriptor(ask.request, &it);
	ask.request->c = (uintptr_t)to->portnfy_user;
	if (ask_simply(&ask) < 0)
		return -1;
	if (ask.a >= WIRE_TIMERS) {
		errno = EAGAIN;
		return -1;
	}
	own[ask.a].clock = clock;
	atomic_store(&own[ask.a].next, 0);
	atomic_store(&own[ask.a].interval, 0);
	atomic_store(&own[ask.a].overrun, 0);
	atomic_store(&own[ask.a].is_there, true);
	*timer = (timer_t)(uintptr_t)(TIMER_MARK | ask.a);
	return 0;
}

static struct timespec time_of(int64_t count)
{
	struct timespec time = { .tv_sec = count / SECOND, .tv_nsec = count % SECOND };

	return time;
}

/* How long it is until the timer tells. */
static void tell_value(int number, struct itimerspec *value)
{
	int64_t next = atomic_load(&own[number].next), interval = atomic_load(&own[number].interval);
	int64_t left = next - now(CLOCK_MONOTONIC);

	if (next != 0 && left <= 0)
		left = interval == 0 ? 0 : interval - -left % interval;
	value->it_value = time_of(next == 0 ? 0 : left);
	value->it_interval = time_of(interval);
}

EXPORT int timer_gettime(timer_t timer, struct itimerspec *value)
{
	if (!is_of_port(timer))
		return real_timer_gettime(timer, value);
	int number = number_of(timer);
	if (number < 0)
		return -1;
	tell_value(number, value);
	return 0;
}

static bool is_time(const struct timespec *time)
{
	return time->tv_sec >= 0 && time->tv_nsec >= 0 && time->tv_nsec < SECOND;
}

/* How long it is until this moment, or this time: 0 for never. */
static int64_t time_until(int number, int flags, const struct timespec *value)
{
	int64_t time = value->tv_sec == 0 && value->tv_nsec == 0 ? 0 : count(value);

	if (time == 0 || !(flags & TIMER_ABSTIME))
		return time;
	/* what has gone by tells at once */
	time = (int64_t)value->tv_sec * SECOND + value->tv_nsec - now(own[number].clock);
	return time > 0 ? time : 1;
}

EXPORT int timer_settime(timer_t timer, int flags, const struct itimerspec *restrict value,
	struct itimerspec *restrict old)
{
	struct itimerspec before;
	struct ask ask;

	if (!is_of_port(timer))
		return real_timer_settime(timer, flags, value, old);
	int number = number_of(timer);
	if (number < 0)
		return -1;
	if (!is_time(&value->it_value) || !is_time(&value->it_interval)) {
		errno = EINVAL;
		return -1;
	}
	int64_t first = time_until(number, flags, &value->it_value), interval = first == 0 ? 0 : count(&value->it_interval);
	tell_value(number, &before);
	if (begin_ask(&ask, KERNEL_OP_TIMER_SET) < 0)
		return -1;
	ask.request->a = (uint32_t)number;
	ask.request->c = (uint64_t)first;
	ask.request->item[0] = (uint64_t)interval;
	ask.request->items = 1;
	if (ask_simply(&ask) < 0)
		return -1;
	atomic_store(&own[number].next, first == 0 ? 0 : now(CLOCK_MONOTONIC) + first);
	atomic_store(&own[number].interval, interval);
	if (old)
		*old = before;
	return 0;
}

EXPORT int timer_getoverrun(timer_t timer)
{
	if (!is_of_port(timer))
		return real_timer_getoverrun(timer);
	int number = number_of(timer);
	return number < 0 ? -1 : atomic_load(&own[number].overrun);
}

EXPORT int timer_delete(timer_t timer)
{
	if (!is_of_port(timer))
		return real_timer_delete(timer);
	int number = number_of(timer);
	if (number < 0)
		return -1;
	atomic_store(&own[number].is_there, false);
	return ask_about(KERNEL_OP_TIMER_DELETE, (uint32_t)number);
}

/* What the program has for the timer of an event, which tells how often its moments have come. */
uintptr_t timer_told(uint64_t number, uint32_t times)
{
	if (number < WIRE_TIMERS)
		atomic_store(&own[number].overrun, times == 0 ? 0 : times - 1 < INT_MAX ? (int)(times - 1) : INT_MAX);
	return (uintptr_t)(TIMER_MARK | (uint32_t)number);
}

/* A forked child has none of them. */
void forget_timers(void)
{
	for (unsigned i = 0; i < WIRE_TIMERS; i++)
		atomic_store(&own[i].is_there, false);
}
