/*
 * shutdown WAY PATH: a server that is ended by SIGTERM, and reads its file `text` again on SIGHUP, which its door answers.
 *   handler   the handler of SIGTERM revokes the door, takes the path away, and ends; it may run in the thread that waits in door_return
 *   flag      the handlers set a flag, and main looks after it, between sigsuspend
 *   sigwait   all threads block all signals, but one, which waits for them by sigwait
 *   info      the same by sigwaitinfo and sigtimedwait
 *   signalfd  the same by signalfd and poll
 *   ppoll     main handles them in ppoll and pselect alone
 */
#define _GNU_SOURCE 1
#include "test.h"

#include <poll.h>
#include <sys/select.h>
#include <sys/signalfd.h>

static int door;
static const char *path;
static char text[64];
static volatile sig_atomic_t hung_up, terminated;

static void read_text(void)
{
	int file = open("text", O_RDONLY | O_CLOEXEC);
	ssize_t size = file == -1 ? -1 : read(file, text, sizeof(text) - 1);

	if (size < 0)
		give_up("text");
	text[size] = '\0';
	close(file);
}

static void serve(void *cookie, char *argument, size_t size, door_desc_t *descriptors, uint_t descriptor_count)
{
	(void)cookie;
	(void)argument;
	(void)size;
	(void)descriptors;
	(void)descriptor_count;
	give(text);
}

static void end(void)
{
	check(door_revoke(door) == 0);
	check(fdetach(path) == 0);
	_exit(6);
}

static void take(int number)
{
	if (number == SIGHUP)
		read_text();
	else if (number == SIGTERM)
		end();
}

static void note(int number)
{
	if (number == SIGHUP)
		hung_up = 1;
	else
		terminated = 1;
}

static void look_after_notes(void)
{
	if (hung_up)
		take(SIGHUP);
	if (terminated)
		take(SIGTERM);
	hung_up = terminated = 0;
}

static void handle(void (*handler)(int))
{
	struct sigaction action;

	memset(&action, 0, sizeof(action));
	action.sa_handler = handler;
	sigaddset(&action.sa_mask, SIGHUP);
	sigaddset(&action.sa_mask, SIGTERM);
	check(sigaction(SIGHUP, &action, NULL) == 0 && sigaction(SIGTERM, &action, NULL) == 0);
}

static void *serve_privately(void *unused)
{
	sigset_t none;

	sigemptyset(&none);
	check(door_bind(door) == 0 && pthread_sigmask(SIG_SETMASK, &none, NULL) == 0);
	door_return(NULL, 0, NULL, 0);
	say("door_return: %s", error_name(errno));
	return unused;
}

static void *wait_by_sigwait(void *all)
{
	int number;

	for (;;) {
		check(sigwait(all, &number) == 0);
		take(number);
	}
	return NULL;
}

static void *wait_by_info(void *all)
{
	static const struct timespec second = { 1, 0 };
	siginfo_t info;
	int first = 1;

	for (;;) {
		int number = first ? sigwaitinfo(all, &info) : sigtimedwait(all, &info, &second);

		check(number == -1 ? errno == EAGAIN || errno == EINTR : info.si_signo == number && info.si_pid != 0);
		first = number == -1;
		take(number);
	}
	return NULL;
}

static void wait_by_signalfd(const sigset_t *all)
{
	struct pollfd signals = { .fd = signalfd(-1, all, SFD_CLOEXEC), .events = POLLIN };
	struct signalfd_siginfo info;

	for (;;) {
		if (poll(&signals, 1, -1) == 1 && read(signals.fd, &info, sizeof(info)) == (ssize_t)sizeof(info))
			take((int)info.ssi_signo);
	}
}

static void wait_by_poll(void)
{
	sigset_t none;
	int turn;

	sigemptyset(&none);
	for (turn = 0;; turn++) {
		int came = turn % 2 == 0 ? ppoll(NULL, 0, NULL, &none) : pselect(0, NULL, NULL, NULL, NULL, &none);

		check(came == -1 && errno == EINTR);
		look_after_notes();
	}
}

static void wait_by_flag(void)
{
	sigset_t none;

	sigemptyset(&none);
	for (;;) {
		sigsuspend(&none);
		look_after_notes();
	}
}

int main(int argc, char **argv)
{
	const char *way = argc == 3 ? argv[1] : "";
	sigset_t all;

	if (argc != 3)
		return 2;
	path = argv[2];
	read_text();
	sigfillset(&all);
	pthread_sigmask(SIG_SETMASK, &all, NULL); /* what is made from here on has it, too */
	if (strcmp(way, "handler") == 0) {
		handle(take);
		door = serve_at(path, serve, NULL, DOOR_PRIVATE);
		serve_privately(NULL);
		return 1;
	}
	handle(note);
	door = serve_at(path, serve, NULL, 0);
	if (strcmp(way, "sigwait") == 0)
		pthread_join(thread_of(wait_by_sigwait, &all), NULL);
	else if (strcmp(way, "info") == 0)
		pthread_join(thread_of(wait_by_info, &all), NULL);
	else if (strcmp(way, "signalfd") == 0)
		wait_by_signalfd(&all);
	else if (strcmp(way, "ppoll") == 0)
		wait_by_poll();
	else
		wait_by_flag();
	return 1;
}
