/*
 * signals WAY: handlers of signals that come while a thread waits in the library.
 *   calls     a handler makes a call, closes and opens, while its thread waits in door_call
 *   jumps     a handler leaves door_call by siglongjmp; the next call gets its own answer
 *   storm     a signal each millisecond; calls that end with EINTR are made again, and each answer is that of its request
 *   threads   the same with threads that are interrupted by pthread_kill
 *   requests  a signal each millisecond, whose handler opens and closes, in a thread that opens, copies, looks and closes
 *   blocked   a signal that is blocked does not end a call
 *   faults    a server whose procedure faults, and handles it
 *   server    a server whose thread in door_return handles signals: SIGUSR1; SIGUSR2, which ends the thread; SIGTERM, by which it takes its
 *             path away, and ends
 */
#include "test.h"

#include <setjmp.h>
#include <sys/time.h>

static int door;
static volatile sig_atomic_t handled;
static sigjmp_buf place;

static void handle(int number, void (*handler)(int), int flags)
{
	struct sigaction action;

	memset(&action, 0, sizeof(action));
	action.sa_handler = handler;
	action.sa_flags = flags;
	check(sigaction(number, &action, NULL) == 0);
}

static void every(int milliseconds)
{
	struct itimerval timer = { { 0, milliseconds * 1000 }, { 0, milliseconds * 1000 } };

	check(setitimer(ITIMER_REAL, &timer, NULL) == 0);
}

static void count(int number)
{
	(void)number;
	__atomic_fetch_add(&handled, 1, __ATOMIC_RELAXED);
}

static void call_again(int number)
{
	static char answer[64];
	int other;

	(void)number;
	other = open("other", O_RDWR);
	check(ask(other, "echo from the handler", answer, sizeof(answer)) == 0);
	check(close(other) == 0);
	say("handler: %s", answer);
	errno = ENFILE; /* handlers keep errno; one that does not makes no difference to door_call */
}

/* Its thread waits in `hold`, for a file that comes later: the script sends the signal. */
static void calls(void)
{
	char answer[64];

	handle(SIGUSR1, call_again, 0);
	say("call: %s", error_name(ask(door, "hold go x", answer, sizeof(answer))));
	say("call: %s", error_name(ask(door, "echo x", answer, sizeof(answer))));
}

static void jump(int number)
{
	(void)number;
	siglongjmp(place, 1);
}

static void jumps(void)
{
	static volatile int left, i;
	static char request[64], answer[64];

	handle(SIGALRM, jump, 0);
	for (i = 0; i < 30; i++) {
		if (sigsetjmp(place, 1) == 0) {
			struct itimerval once = { { 0, 0 }, { 0, 3000 + 500 * (i % 10) } };

			snprintf(request, sizeof(request), "hold %d", i);
			check(setitimer(ITIMER_REAL, &once, NULL) == 0);
			ask(door, request, answer, sizeof(answer));
			say("it came back");
		} else {
			left++;
		}
		snprintf(request, sizeof(request), "%d", i);
		touch(request);
		snprintf(request, sizeof(request), "echo %d", i);
		check(ask(door, request, answer, sizeof(answer)) == 0);
		check(strcmp(answer, request + 5) == 0);
	}
	say("left %d", left);
}

/* So many calls, each made until it is answered, and each answer is that of its request. */
static void calls_until_answered(int first, int times)
{
	char request[64], answer[64];
	int i, error;

	for (i = first; i < first + times; i++) {
		snprintf(request, sizeof(request), "echo %d", i);
		do {
			answer[0] = '\0';
			error = ask(door, request, answer, sizeof(answer));
		} while (error == EINTR);
		check(error == 0 && strcmp(answer, request + 5) == 0);
	}
}

static void storm(int flags)
{
	handle(SIGALRM, count, flags);
	every(1);
	calls_until_answered(0, 1000);
	every(0);
	check(handled > 0);
}

static void open_and_close(int number)
{
	int other = open("w", O_RDONLY), error = errno;

	(void)number;
	check(other != -1 && close(other) == 0);
	errno = error;
	handled++;
}

static void requests(void)
{
	door_info_t info;
	int i, before = descriptors_open();

	handle(SIGALRM, open_and_close, SA_RESTART);
	every(1);
	for (i = 0; i < 1000; i++) {
		int it = open("w", O_RDWR), copy = dup(it), other = fcntl(it, F_DUPFD, 100);

		check(it != -1 && copy != -1 && other >= 100 && it != copy);
		check(door_info(copy, &info) == 0 && close(copy) == 0 && dup2(it, other) == other && close(it) == 0);
		check(door_info(other, &info) == 0 && close(other) == 0);
	}
	every(0);
	check(handled > 0 && descriptors_open() == before);
}

static void blocked(void)
{
	sigset_t set;
	char answer[64];

	handle(SIGUSR1, count, 0);
	sigemptyset(&set);
	sigaddset(&set, SIGUSR1);
	pthread_sigmask(SIG_BLOCK, &set, NULL);
	say("call: %s", error_name(ask(door, "hold go x", answer, sizeof(answer))));
	check(handled == 0);
	pthread_sigmask(SIG_UNBLOCK, &set, NULL);
	check(handled == 1);
}

static __thread sigjmp_buf after_fault;

static void fault(int number)
{
	(void)number;
	siglongjmp(after_fault, 1);
}

static void faulty(void *cookie, char *argument, size_t size, door_desc_t *descriptors, uint_t descriptor_count)
{
	(void)cookie;
	(void)argument;
	(void)size;
	(void)descriptors;
	(void)descriptor_count;
	if (sigsetjmp(after_fault, 1) == 0)
		*(volatile char *)8 = 1;
	give("fault");
}

static void faults(void)
{
	handle(SIGSEGV, fault, 0);
	serve_at("faulty", faulty, NULL, 0);
	for (;;)
		pause();
}

static void *call_often(void *first)
{
	calls_until_answered((int)(intptr_t)first, 300);
	return first;
}

static void threads(void)
{
	pthread_t thread[4];
	int i, j;

	handle(SIGUSR1, count, 0);
	for (i = 0; i < 4; i++)
		thread[i] = thread_of(call_often, (void *)(intptr_t)(1000 * i));
	for (j = 0; j < 300; j++) {
		for (i = 0; i < 4; i++)
			pthread_kill(thread[i], SIGUSR1);
		usleep(500);
	}
	for (i = 0; i < 4; i++)
		pthread_join(thread[i], NULL);
	check(handled > 0);
}

static void serve(void *cookie, char *argument, size_t size, door_desc_t *descriptors, uint_t descriptor_count)
{
	(void)cookie;
	(void)argument;
	(void)size;
	(void)descriptors;
	(void)descriptor_count;
	give("ok");
}

static void end(int number)
{
	(void)number;
	check(fdetach("served") == 0);
	fails(fdetach("served"), EINVAL);
	_exit(6);
}

static void end_thread(int number)
{
	(void)number;
	pthread_exit(NULL);
}

static void *serve_privately(void *unused)
{
	sigset_t none;

	sigemptyset(&none);
	check(door_bind(door) == 0);
	pthread_sigmask(SIG_SETMASK, &none, NULL);
	door_return(NULL, 0, NULL, 0);
	say("door_return: %s", error_name(errno));
	return unused;
}

/* All threads but the one that waits in door_return block the signals: so it handles them. */
static void server(void)
{
	sigset_t all;

	handle(SIGTERM, end, 0);
	handle(SIGUSR2, end_thread, 0);
	handle(SIGUSR1, count, 0);
	sigfillset(&all);
	pthread_sigmask(SIG_SETMASK, &all, NULL);
	door = door_create(serve, NULL, DOOR_PRIVATE);
	thread_of(serve_privately, NULL);
	touch("served");
	check(fattach(door, "served") == 0);
	for (;;)
		pause();
}

int main(int argc, char **argv)
{
	const char *way = argc > 1 ? argv[1] : "";

	if (strcmp(way, "server") == 0)
		server();
	if (strcmp(way, "faults") == 0)
		faults();
	door = open("w", O_RDWR);
	if (strcmp(way, "calls") == 0)
		calls();
	else if (strcmp(way, "jumps") == 0)
		jumps();
	else if (strcmp(way, "storm") == 0)
		storm(0);
	else if (strcmp(way, "restart") == 0)
		storm(SA_RESTART);
	else if (strcmp(way, "threads") == 0)
		threads();
	else if (strcmp(way, "requests") == 0)
		requests();
	else if (strcmp(way, "blocked") == 0)
		blocked();
	say("done");
	return 0;
}
