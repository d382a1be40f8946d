/* timers: timers that tell ports, once and again and again, and those of the system beside them. */
#include "test.h"

#include <port.h>
#include <time.h>

static struct timespec none, long_time = { 50, 0 };

static long long now(clockid_t clock)
{
	struct timespec time;

	clock_gettime(clock, &time);
	return time.tv_sec * 1000000000LL + time.tv_nsec;
}

static int make(int port, clockid_t clock, long user, timer_t *timer)
{
	port_notify_t to = { port, (void *)user };
	struct sigevent how;

	memset(&how, 0, sizeof(how));
	how.sigev_notify = SIGEV_PORT;
	how.sigev_value.sival_ptr = &to;
	return timer_create(clock, &how, timer);
}

static int set(timer_t timer, long long first, long long next)
{
	struct itimerspec value = { { next / 1000000000, next % 1000000000 }, { first / 1000000000, first % 1000000000 } };

	return timer_settime(timer, 0, &value, NULL);
}

/* An event of this timer comes: how often it told. */
static int comes(int port, timer_t timer, long user)
{
	port_event_t event;
	int answer = port_get(port, &event, &long_time);

	check(answer == 0 && event.portev_source == PORT_SOURCE_TIMER && event.portev_object == (uintptr_t)timer);
	check(answer != 0 || event.portev_user == (void *)user);
	return answer == 0 ? event.portev_events : 0;
}

static void nothing(int port)
{
	port_event_t event;

	fails(port_get(port, &event, &none), ETIME);
}

static void once(int port)
{
	struct itimerspec value, old;
	long long before = now(CLOCK_MONOTONIC);
	timer_t timer = NULL, other = NULL;

	check(make(port, CLOCK_REALTIME, 7, &timer) == 0 && make(port, CLOCK_MONOTONIC, 8, &other) == 0 && timer != other);
	nothing(port);
	/* less than the kernel's unit is not never, nor is any of it too early */
	check(set(other, 1, 0) == 0 && comes(port, other, 8) == 1);
	before = now(CLOCK_MONOTONIC);
	check(set(timer, 20300000, 0) == 0 && comes(port, timer, 7) == 1);
	check(now(CLOCK_MONOTONIC) - before >= 20300000);
	check(timer_getoverrun(timer) == 0);
	check(timer_gettime(timer, &value) == 0 && value.it_value.tv_sec == 0 && value.it_value.tv_nsec == 0);
	check(set(timer, 40000000000LL, 0) == 0);
	check(timer_gettime(timer, &value) == 0 && value.it_value.tv_sec >= 30 && value.it_value.tv_sec < 40);
	memset(&value, 0, sizeof(value));
	check(timer_settime(timer, 0, &value, &old) == 0 && old.it_value.tv_sec >= 30);
	nothing(port);
	value.it_value.tv_nsec = 1000000000;
	fails(timer_settime(timer, 0, &value, NULL), EINVAL);
	/* a moment that has gone by */
	value.it_value.tv_sec = 1;
	value.it_value.tv_nsec = 0;
	check(timer_settime(timer, TIMER_ABSTIME, &value, NULL) == 0 && comes(port, timer, 7) == 1);
	before = now(CLOCK_REALTIME) + 15000000;
	value.it_value.tv_sec = before / 1000000000;
	value.it_value.tv_nsec = before % 1000000000;
	check(timer_settime(timer, TIMER_ABSTIME, &value, NULL) == 0 && comes(port, timer, 7) == 1);
	check(now(CLOCK_REALTIME) >= before);
	check(timer_delete(other) == 0 && timer_delete(timer) == 0);
	fails(timer_delete(timer), EINVAL);
	fails(timer_getoverrun(timer), EINVAL);
}

/* What nobody takes is counted, by a clock that is not ahead; a timer that is deleted takes its event along. */
static void again(int port)
{
	struct timespec some = { 0, 50000000 };
	long long begun = now(CLOCK_MONOTONIC);
	int times, all = 0, most = 0;
	timer_t timer;

	check(make(port, CLOCK_MONOTONIC, 9, &timer) == 0 && set(timer, 5000000, 5000000) == 0);
	while (all < 9 || most < 2) {
		nanosleep(&some, NULL);
		times = comes(port, timer, 9);
		check(times >= 1 && timer_getoverrun(timer) == times - 1);
		all += times;
		if (times > most)
			most = times;
	}
	check(all <= (now(CLOCK_MONOTONIC) - begun) / 5000000);
	nanosleep(&some, NULL);
	check(timer_delete(timer) == 0);
	nothing(port);
}

static void refused(int port)
{
	timer_t timer[33];
	int i;

	fails(make(99, CLOCK_REALTIME, 0, &timer[0]), EBADF);
	fails(make(port, CLOCK_PROCESS_CPUTIME_ID, 0, &timer[0]), EINVAL);
	for (i = 0; i < 32; i++)
		check(make(port, CLOCK_REALTIME, i, &timer[i]) == 0);
	fails(make(port, CLOCK_REALTIME, i, &timer[i]), EAGAIN);
	while (--i >= 0)
		check(timer_delete(timer[i]) == 0);
}

static volatile sig_atomic_t signals;

static void count_signal(int number)
{
	(void)number;
	signals++;
}

/* Timers of the system, by a signal. */
static void of_system(void)
{
	struct sigevent how;
	struct itimerspec value;
	timer_t timer;

	memset(&how, 0, sizeof(how));
	how.sigev_notify = SIGEV_SIGNAL;
	how.sigev_signo = SIGUSR1;
	signal(SIGUSR1, count_signal);
	check(timer_create(CLOCK_MONOTONIC, &how, &timer) == 0 && set(timer, 10000000, 0) == 0);
	while (!signals)
		usleep(1000);
	check(timer_gettime(timer, &value) == 0 && timer_getoverrun(timer) == 0 && timer_delete(timer) == 0);
	check(signals == 1);
}

int main(int count, char **words)
{
	int port = port_create();
	timer_t timer;

	if (count > 1) {
		/* ends with timers that are armed, which tell the next program nothing */
		check(make(port, CLOCK_REALTIME, 1, &timer) == 0 && set(timer, 1000000, 1000000) == 0);
		check(comes(port, timer, 1) >= 1);
		(void)words;
		return 0;
	}
	once(port);
	again(port);
	refused(port);
	of_system();
	say("done");
	return 0;
}
