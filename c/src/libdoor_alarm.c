/*
 * libdoor_alarm.c: alarm(2), ualarm(3) and setitimer(2). The system does not show to others whether a process has set an
 * alarm, and doord has to know before it says that nothing will ever end a wait. So it is told here, and by threads that
 * wait (libdoor_ask.c), since an alarm that has come is none any more.
 */
#include "libdoor.h"

#include <sys/syscall.h>
#include <sys/time.h>
#include <unistd.h>

bool is_alarm_set(void)
{
	struct itimerval alarm;

	return syscall(SYS_getitimer, ITIMER_REAL, &alarm) == 0 && (alarm.it_value.tv_sec != 0 || alarm.it_value.tv_usec != 0);
}

/* The program has set one, or taken it back. */
void tell_alarm(void)
{
	if (is_connected_here())
		atomic_store(&connection.area->has_alarm, is_alarm_set());
}

EXPORT unsigned alarm(unsigned seconds)
{
	unsigned left = real_alarm(seconds);

	tell_alarm();
	return left;
}

EXPORT useconds_t ualarm(useconds_t first, useconds_t next)
{
	useconds_t left = real_ualarm(first, next);

	tell_alarm();
	return left;
}

EXPORT int setitimer(__itimer_which_t which, const struct itimerval *restrict value, struct itimerval *restrict old)
{
	int result = real_setitimer(which, value, old);

	if (which == ITIMER_REAL)
		tell_alarm();
	return result;
}
