/*
 * ends: the writing end of a pipe goes with a call that nobody takes any more, since it is interrupted, or its door is revoked, or its server
 * is killed, while it is queued; or the call is refused. In each case the pipe ends. The doors one and two are private, and their only
 * threads are busy; w is for what else is asked of their server, refuse takes no descriptors.
 */
#include "test.h"

static int writing;

static void handler(int number) { (void)number; }

static void *pass(void *door)
{
	door_desc_t end;
	door_arg_t call = { (char *)(uintptr_t)"echo x", 6, &end, 1, NULL, 0 };

	memset(&end, 0, sizeof(end));
	end.d_attributes = DOOR_DESCRIPTOR | DOOR_RELEASE;
	end.d_data.d_desc.d_descriptor = writing;
	return (void *)(intptr_t)(door_call((int)(intptr_t)door, &call) == 0 ? 0 : errno);
}

/* It is queued once its descriptor is gone here. */
static pthread_t queued(int door, int *reading)
{
	pthread_t thread;
	int ends[2];

	check(pipe(ends) == 0);
	*reading = ends[0];
	writing = fcntl(ends[1], F_DUPFD, 100);
	check(close(ends[1]) == 0);
	thread = thread_of(pass, (void *)(intptr_t)door);
	while (fcntl(writing, F_GETFD) != -1)
		usleep(1000);
	return thread;
}

/* The call ends with this error, and the pipe with it. */
static void is_over(pthread_t thread, int error, int reading)
{
	void *result;
	char byte;

	check(pthread_join(thread, &result) == 0 && (intptr_t)result == error);
	check(read(reading, &byte, 1) == 0);
	check(close(reading) == 0);
}

int main(void)
{
	int one = open("one", O_RDWR), two = open("two", O_RDWR), w = open("w", O_RDWR), refuse = open("refuse", O_RDWR), reading, ends[2];
	struct sigaction action;
	char answer[64];
	pthread_t thread;

	memset(&action, 0, sizeof(action));
	action.sa_handler = handler;
	sigaction(SIGUSR1, &action, NULL);
	thread = queued(one, &reading);
	check(pthread_kill(thread, SIGUSR1) == 0);
	is_over(thread, EINTR, reading);

	thread = queued(one, &reading);
	check(ask(w, "revoke 1", answer, sizeof(answer)) == 0);
	is_over(thread, EBADF, reading);

	check(pipe(ends) == 0);
	writing = ends[1];
	check((intptr_t)pass((void *)(intptr_t)refuse) == ENOTSUP);
	check((intptr_t)pass((void *)(intptr_t)one) == EBADF);
	check(close(writing) == 0); /* it was not taken */
	is_over(thread_of(pass, (void *)(intptr_t)999), EBADF, ends[0]);

	thread = queued(two, &reading);
	check(ask(w, "crash", answer, sizeof(answer)) == EINTR);
	is_over(thread, EBADF, reading);
	say("done");
	return 0;
}
