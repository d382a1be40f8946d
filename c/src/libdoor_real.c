/* libdoor_real.c: the system's own functions, behind those that libdoor stands before. They are looked up when they are first wanted. */
#include "libdoor.h"

#include <dlfcn.h>
#include <errno.h>
#include <string.h>

enum real {
	REAL_OPENAT = REAL_SIGNALS, /* those before it are enum real_signal */
	REAL_CLOSE,
	REAL_CLOSE_RANGE,
	REAL_DUP,
	REAL_DUP2,
	REAL_DUP3,
	REAL_FCNTL,
	REAL_FSTAT,
	REAL_FSTATAT,
	REAL_STATX,
	REAL_UNLINK,
	REAL_UNLINKAT,
	REAL_REMOVE,
	REAL_RENAMEAT,
	REAL_RENAMEAT2,
	REAL_FORK,
	REAL_DAEMON,
	REAL_ALARM,
	REAL_UALARM,
	REAL_SETITIMER,
	REAL_TIMER_CREATE,
	REAL_TIMER_SETTIME,
	REAL_TIMER_GETTIME,
	REAL_TIMER_GETOVERRUN,
	REAL_TIMER_DELETE,
	REAL_SIGACTION,
	REAL_SETCANCELSTATE,
	REALS,
};

static const char *const name_of[REALS] = {
	[REAL_SIGNAL] = "signal",
	[REAL_BSD_SIGNAL] = "bsd_signal",
	[REAL_SSIGNAL] = "ssignal",
	[REAL_SYSV_SIGNAL] = "sysv_signal",
	[REAL_OTHER_SYSV_SIGNAL] = "__sysv_signal",
	[REAL_SIGSET] = "sigset",
	[REAL_OPENAT] = "openat",
	[REAL_CLOSE] = "close",
	[REAL_CLOSE_RANGE] = "close_range",
	[REAL_DUP] = "dup",
	[REAL_DUP2] = "dup2",
	[REAL_DUP3] = "dup3",
	[REAL_FCNTL] = "fcntl",
	[REAL_FSTAT] = "fstat",
	[REAL_FSTATAT] = "fstatat",
	[REAL_STATX] = "statx",
	[REAL_UNLINK] = "unlink",
	[REAL_UNLINKAT] = "unlinkat",
	[REAL_REMOVE] = "remove",
	[REAL_RENAMEAT] = "renameat",
	[REAL_RENAMEAT2] = "renameat2",
	[REAL_FORK] = "fork",
	[REAL_DAEMON] = "daemon",
	[REAL_ALARM] = "alarm",
	[REAL_UALARM] = "ualarm",
	[REAL_SETITIMER] = "setitimer",
	[REAL_TIMER_CREATE] = "timer_create",
	[REAL_TIMER_SETTIME] = "timer_settime",
	[REAL_TIMER_GETTIME] = "timer_gettime",
	[REAL_TIMER_GETOVERRUN] = "timer_getoverrun",
	[REAL_TIMER_DELETE] = "timer_delete",
	[REAL_SIGACTION] = "sigaction",
	[REAL_SETCANCELSTATE] = "pthread_setcancelstate",
};

static void *_Atomic found[REALS];

/* Puts the function into `function`, which is a pointer to a function; false where the system has none. */
static bool find(unsigned which, void *function)
{
	void *address = atomic_load_explicit(&found[which], memory_order_relaxed);

	if (!address) {
		address = dlsym(RTLD_NEXT, name_of[which]);
		atomic_store_explicit(&found[which], address, memory_order_relaxed);
	}
	memcpy(function, &address, sizeof address);
	if (!address)
		errno = ENOSYS;
	return address;
}

/* dlsym(3) takes a lock, so a handler should not be the first to want a function. */
__attribute__((constructor)) static void find_all(void)
{
	int error = errno;
	void *function;

	for (unsigned which = 0; which < REALS; which++)
		(void)find(which, &function);
	errno = error;
}

int real_openat(int directory, const char *path, int flags, mode_t mode)
{
	int (*function)(int, const char *, int, ...);

	return find(REAL_OPENAT, &function) ? function(directory, path, flags, mode) : -1;
}

int real_close(int fd)
{
	int (*function)(int);

	return find(REAL_CLOSE, &function) ? function(fd) : -1;
}

int real_close_range(unsigned first, unsigned last, int flags)
{
	int (*function)(unsigned, unsigned, int);

	return find(REAL_CLOSE_RANGE, &function) ? function(first, last, flags) : -1;
}

int real_dup(int fd)
{
	int (*function)(int);

	return find(REAL_DUP, &function) ? function(fd) : -1;
}

int real_dup2(int from, int to)
{
	int (*function)(int, int);

	return find(REAL_DUP2, &function) ? function(from, to) : -1;
}

int real_dup3(int from, int to, int flags)
{
	int (*function)(int, int, int);

	return find(REAL_DUP3, &function) ? function(from, to, flags) : -1;
}

int real_fcntl(int fd, int command, void *argument)
{
	int (*function)(int, int, ...);

	return find(REAL_FCNTL, &function) ? function(fd, command, argument) : -1;
}

int real_fstat(int fd, struct stat *found)
{
	int (*function)(int, struct stat *);

	return find(REAL_FSTAT, &function) ? function(fd, found) : -1;
}

int real_fstatat(int directory, const char *path, struct stat *found, int flags)
{
	int (*function)(int, const char *, struct stat *, int);

	return find(REAL_FSTATAT, &function) ? function(directory, path, found, flags) : -1;
}

int real_statx(int directory, const char *path, int flags, unsigned mask, struct statx *found)
{
	int (*function)(int, const char *, int, unsigned, struct statx *);

	return find(REAL_STATX, &function) ? function(directory, path, flags, mask, found) : -1;
}

int real_unlink(const char *path)
{
	int (*function)(const char *);

	return find(REAL_UNLINK, &function) ? function(path) : -1;
}

int real_unlinkat(int directory, const char *path, int flags)
{
	int (*function)(int, const char *, int);

	return find(REAL_UNLINKAT, &function) ? function(directory, path, flags) : -1;
}

int real_remove(const char *path)
{
	int (*function)(const char *);

	return find(REAL_REMOVE, &function) ? function(path) : -1;
}

int real_renameat(int from_directory, const char *from, int to_directory, const char *to)
{
	int (*function)(int, const char *, int, const char *);

	return find(REAL_RENAMEAT, &function) ? function(from_directory, from, to_directory, to) : -1;
}

int real_renameat2(int from_directory, const char *from, int to_directory, const char *to, unsigned flags)
{
	int (*function)(int, const char *, int, const char *, unsigned);

	return find(REAL_RENAMEAT2, &function) ? function(from_directory, from, to_directory, to, flags) : -1;
}

pid_t real_fork(void)
{
	pid_t (*function)(void);

	return find(REAL_FORK, &function) ? function() : -1;
}

int real_daemon(int keeps_folder, int keeps_streams)
{
	int (*function)(int, int);

	return find(REAL_DAEMON, &function) ? function(keeps_folder, keeps_streams) : -1;
}

unsigned real_alarm(unsigned seconds)
{
	unsigned (*function)(unsigned);

	return find(REAL_ALARM, &function) ? function(seconds) : 0;
}

useconds_t real_ualarm(useconds_t first, useconds_t next)
{
	useconds_t (*function)(useconds_t, useconds_t);

	return find(REAL_UALARM, &function) ? function(first, next) : 0;
}

int real_setitimer(int which, const struct itimerval *value, struct itimerval *old)
{
	int (*function)(int, const struct itimerval *, struct itimerval *);

	return find(REAL_SETITIMER, &function) ? function(which, value, old) : -1;
}

int real_timer_create(clockid_t clock, struct sigevent *how, timer_t *timer)
{
	int (*function)(clockid_t, struct sigevent *, timer_t *);

	return find(REAL_TIMER_CREATE, &function) ? function(clock, how, timer) : -1;
}

int real_timer_settime(timer_t timer, int flags, const struct itimerspec *value, struct itimerspec *old)
{
	int (*function)(timer_t, int, const struct itimerspec *, struct itimerspec *);

	return find(REAL_TIMER_SETTIME, &function) ? function(timer, flags, value, old) : -1;
}

int real_timer_gettime(timer_t timer, struct itimerspec *value)
{
	int (*function)(timer_t, struct itimerspec *);

	return find(REAL_TIMER_GETTIME, &function) ? function(timer, value) : -1;
}

int real_timer_getoverrun(timer_t timer)
{
	int (*function)(timer_t);

	return find(REAL_TIMER_GETOVERRUN, &function) ? function(timer) : -1;
}

int real_timer_delete(timer_t timer)
{
	int (*function)(timer_t);

	return find(REAL_TIMER_DELETE, &function) ? function(timer) : -1;
}

int real_sigaction(int number, const struct sigaction *action, struct sigaction *old)
{
	int (*function)(int, const struct sigaction *, struct sigaction *);

	return find(REAL_SIGACTION, &function) ? function(number, action, old) : -1;
}

sighandler_t real_signal(enum real_signal which, int number, sighandler_t handler)
{
	sighandler_t (*function)(int, sighandler_t);

	return find(which, &function) ? function(number, handler) : SIG_ERR;
}

/* Answers an error, as all of pthreads(7) do. */
int real_setcancelstate(int state, int *old)
{
	int (*function)(int, int *);

	return find(REAL_SETCANCELSTATE, &function) ? function(state, old) : ENOSYS;
}
