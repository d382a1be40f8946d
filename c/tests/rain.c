/*
 * rain SEED SIGNALS: threads make calls while signals come at moments that a seed gives: by kill, by pthread_kill, by setitimer and by
 * timer_create, with SA_RESTART and without. Each call answers what it asked for, or EINTR; in the end all have come back.
 */
#include "test.h"

#include <sys/time.h>
#include <time.h>

enum { CALLERS = 3 };

static int door;
static volatile int over;
static pthread_t caller[CALLERS];
static long answered[CALLERS], interrupted[CALLERS];
static long handled;

static void count(int number)
{
	(void)number;
	__atomic_fetch_add(&handled, 1, __ATOMIC_RELAXED);
}

/* One in so many opens the door, calls it and closes it. */
static void count_and_ask(int number)
{
	static _Thread_local unsigned times;
	char answer[64];
	int other, error, before = errno;

	count(number);
	if (++times % 16 != 0)
		return;
	other = open("w", O_RDWR);
	if (other != -1) {
		error = ask(other, "echo handler", answer, sizeof(answer));
		check(error == EINTR || error == EAGAIN || (error == 0 && strcmp(answer, "handler") == 0));
		check(close(other) == 0);
	}
	errno = before;
}

static void handle(int number, void (*handler)(int), int flags)
{
	struct sigaction action;

	memset(&action, 0, sizeof(action));
	action.sa_handler = handler;
	action.sa_flags = flags;
	check(sigaction(number, &action, NULL) == 0);
}

static void *call_on(void *which)
{
	long i, self = (long)(intptr_t)which;
	char request[64], answer[64];

	for (i = 0; !__atomic_load_n(&over, __ATOMIC_SEQ_CST); i++) {
		int error;

		snprintf(request, sizeof(request), "echo %ld-%ld", self, i);
		error = ask(door, request, answer, sizeof(answer));
		if (error == 0 && strcmp(answer, request + 5) == 0)
			answered[self]++;
		else if (error == EINTR)
			interrupted[self]++;
		else
			say("%s: %s %s", request, error_name(error), answer);
	}
	return NULL;
}

static void start_timers(void)
{
	struct itimerval often = { { 0, 1700 }, { 0, 1700 } };
	struct itimerspec oftener = { { 0, 1100000 }, { 0, 1100000 } };
	struct sigevent event = { .sigev_notify = SIGEV_SIGNAL, .sigev_signo = SIGRTMIN + 2 };
	timer_t timer;

	check(setitimer(ITIMER_REAL, &often, NULL) == 0);
	check(timer_create(CLOCK_MONOTONIC, &event, &timer) == 0 && timer_settime(timer, 0, &oftener, NULL) == 0);
}

static void pause_a_little(unsigned *seed)
{
	volatile unsigned i, most = (unsigned)rand_r(seed) % 20000;

	for (i = 0; i < most; i++)
		continue;
	if (rand_r(seed) % 64 == 0)
		usleep((useconds_t)rand_r(seed) % 1000);
}

int main(int argc, char **argv)
{
	unsigned seed = argc > 1 ? (unsigned)atoi(argv[1]) : 1;
	int i, signals = argc > 2 ? atoi(argv[2]) : 10000;

	door = open("w", O_RDWR);
	handle(SIGUSR1, count, SA_RESTART);
	handle(SIGUSR2, count_and_ask, 0);
	handle(SIGALRM, count, SA_NODEFER);
	handle(SIGRTMIN + 2, count_and_ask, SA_RESTART);
	for (i = 0; i < CALLERS; i++)
		caller[i] = thread_of(call_on, (void *)(intptr_t)i);
	start_timers();
	for (i = 0; i < signals; i++) {
		int number = rand_r(&seed) % 2 == 0 ? SIGUSR1 : SIGUSR2;

		if (rand_r(&seed) % 3 == 0)
			check(kill(getpid(), number) == 0);
		else
			check(pthread_kill(caller[rand_r(&seed) % CALLERS], number) == 0);
		pause_a_little(&seed);
	}
	__atomic_store_n(&over, 1, __ATOMIC_SEQ_CST);
	for (i = 0; i < CALLERS; i++) {
		pthread_join(caller[i], NULL);
		check(answered[i] > 0);
	}
	check(handled > 0 && interrupted[0] + interrupted[1] + interrupted[2] > 0);
	say("done");
	return 0;
}
