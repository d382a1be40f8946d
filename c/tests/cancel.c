/* cancel: threads that are cancelled while they wait in a call, at once or at the next point of cancellation. The process goes on. */
#include "test.h"

static int door;
static volatile int came_back;

static void *wait_long(void *how)
{
	char answer[64];

	pthread_setcanceltype(how == NULL ? PTHREAD_CANCEL_DEFERRED : PTHREAD_CANCEL_ASYNCHRONOUS, NULL);
	ask(door, how == NULL ? "hold deferred x" : "hold at_once x", answer, sizeof(answer));
	came_back++;
	for (;;)
		pause();
	return NULL;
}

static void cancel(int at_once)
{
	static int how;
	pthread_t thread = thread_of(wait_long, at_once ? &how : NULL);
	void *result = NULL;
	char answer[64];

	touch(at_once ? "in_first" : "in_second");
	wait_for(at_once ? "first" : "second"); /* the script has seen that it waits */
	check(pthread_cancel(thread) == 0);
	if (!at_once)
		touch("deferred"); /* door_call is no point of cancellation: it comes back, and then pause is one */
	check(pthread_join(thread, &result) == 0 && result == PTHREAD_CANCELED);
	check(came_back == (at_once ? 0 : 1));
	touch("at_once");
	check(ask(door, "echo y", answer, sizeof(answer)) == 0 && strcmp(answer, "y") == 0);
}

int main(void)
{
	door = open("w", O_RDWR);
	cancel(1);
	cancel(0);
	say("done");
	return 0;
}
