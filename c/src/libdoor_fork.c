/*
 * libdoor_fork.c: fork(2) and daemon(3). The kernel's fork comes first, and its child is then this child. The handlers of pthread_atfork(3)
 * do what is to be done for forks that the system's library makes by itself, as in forkpty(3).
 *
 * Where the kernel has no child in store a program that has made a door is told EAGAIN: it might be a daemon whose parent ends. Others fork
 * all the same, mostly to become another program, and their child's descriptors of doors are dead. Who calls daemon(3) wants to go on with
 * what it has, so there both are told EAGAIN.
 */
#include "libdoor.h"

#include <errno.h>
#include <pthread.h>
#include <unistd.h>

/* The fork that this thread is at. */
static __thread struct {
	bool is_asked;     /* the kernel has forked already */
	bool is_connected;
	uint32_t token;    /* of the kernel's child; 0 where it is nobody yet */
	uint64_t mask;     /* that the lock wants back */
} forking __attribute__((tls_model("initial-exec")));

static int ask_fork(bool goes_on)
{
	struct ask ask;

	if (begin_ask(&ask, KERNEL_OP_FORK) < 0)
		return -1;
	ask.request->a = goes_on;
	if (ask_simply(&ask) < 0)
		return -1;
	forking.token = ask.a;
	forking.is_asked = true;
	return 0;
}

/* Nobody else has the lock while the process is copied. */
static void before_fork(void)
{
	forking.is_connected = is_connected_here();
	if (!forking.is_asked)
		forking.token = 0;
	if (forking.is_connected && !forking.is_asked)
		(void)ask_fork(false);
	forking.mask = take_lock();
	/* another thread has connected meanwhile: the child is one of before, but it has what was made since, and forgets it */
	if (!forking.is_connected)
		forking.is_connected = is_connected_here();
}

static void after_fork_in_parent(void)
{
	give_lock(forking.mask);
	forking.is_asked = false;
}

static void after_fork_in_child(void)
{
	int error = errno;

	if (forking.is_connected) {
		disconnect_child();
		forget_threads();
		forget_files();
		forget_doors();
		forget_sources();
		forget_timers();
		forget_servers();
		forget_service();
		bool has_doors = forking.token != 0 && connect_broker(forking.token) == 0;
		renew_stand_ins(has_doors);
		/* to doord the first slot is the one of the thread that has forked */
		if (has_doors)
			(void)take_slot();
		forking.token = 0;
	}
	give_lock(forking.mask);
	forking.is_asked = false;
	errno = error;
}

__attribute__((constructor)) static void watch_forks(void)
{
	(void)pthread_atfork(before_fork, after_fork_in_parent, after_fork_in_child);
}

/* doord hears what became of the child that the kernel has. */
static void tell_fork(pid_t pid)
{
	struct wire_message message = { .kind = WIRE_FORKED, .a = forking.token, .b = (uint32_t)pid };
	int error = errno;

	if (forking.token != 0 && pid > 0)
		(void)send_message(&message, NULL, 0);
	else if (forking.token != 0)
		(void)ask_about(WIRE_FORK_FAILED, forking.token);
	forking.token = 0;
	forking.is_asked = false;
	errno = error;
}

EXPORT pid_t fork(void)
{
	forking.token = 0;
	if (is_connected_here() && ask_fork(false) < 0)
		return -1;
	pid_t pid = real_fork();
	if (pid != 0)
		tell_fork(pid);
	return pid;
}

/* The parent ends in it, and the child comes back: here the token is the child's no more, but where there is no child it is still there. */
EXPORT int daemon(int keeps_folder, int keeps_streams)
{
	forking.token = 0;
	if (is_connected_here() && ask_fork(true) < 0)
		return -1;
	int result = real_daemon(keeps_folder, keeps_streams);
	if (forking.token != 0)
		tell_fork(-1);
	return result;
}
