/*
 * sleeps [-p] PATH: a server whose procedures go to sleep where nobody outside sees why. A client's word says how: `lock`, at a mutex that
 * the main thread has; `pause`, until a signal comes; `read`, of a pipe of its own; `alarm`, until an alarm comes; anything else is
 * answered. With -p its door is private, and has one thread, so that nobody waits for a call then.
 */
#include "test.h"

static pthread_mutex_t lock = PTHREAD_MUTEX_INITIALIZER;

static volatile sig_atomic_t rung;

static void on_alarm(int number)
{
	(void)number;
	rung = 1;
}

static void sleep_for_alarm(void)
{
	sigset_t none;

	sigemptyset(&none);
	alarm(3);
	while (!rung)
		sigsuspend(&none);
}

static void serve(void *cookie, char *argument, size_t size, door_desc_t *descriptors, uint_t descriptor_count)
{
	int end[2];
	char byte;

	(void)cookie;
	(void)descriptors;
	(void)descriptor_count;
	if (size == 4 && memcmp(argument, "lock", 4) == 0)
		pthread_mutex_lock(&lock);
	if (size == 5 && memcmp(argument, "pause", 5) == 0)
		pause();
	if (size == 5 && memcmp(argument, "alarm", 5) == 0)
		sleep_for_alarm();
	if (size == 4 && memcmp(argument, "read", 4) == 0) {
		check(pipe(end) == 0);
		if (read(end[0], &byte, 1) != 1)
			give("no byte");
	}
	give("awake");
}

static void *serve_privately(void *door)
{
	if (door_bind((int)(intptr_t)door) == -1)
		give_up("door_bind");
	door_return(NULL, 0, NULL, 0);
	return NULL;
}

int main(int argc, char **argv)
{
	int door, is_private = argc == 3 && strcmp(argv[1], "-p") == 0;
	sigset_t alarms;

	if (argc != 2 + is_private)
		return 2;
	/* the alarm is the procedure's */
	sigemptyset(&alarms);
	sigaddset(&alarms, SIGALRM);
	signal(SIGALRM, on_alarm);
	pthread_sigmask(SIG_BLOCK, &alarms, NULL);
	pthread_mutex_lock(&lock);
	door = serve_at(argv[argc - 1], serve, NULL, is_private ? DOOR_PRIVATE : 0);
	if (is_private)
		pthread_detach(thread_of(serve_privately, (void *)(intptr_t)door));
	return pause_for_good();
}
