/*
 * deeds: a handler closes a descriptor of a door, takes a path away, and calls a door of another program, in a thread that waits in door_call,
 * in one that waits in door_return, and in one that runs. The script has the server of the doors w and other.
 */
#include "test.h"

static int door, extra, served;
static volatile sig_atomic_t deeds_done;
static const char *path;

static void do_deeds(int number)
{
	static char answer[64];
	int other;

	(void)number;
	check(close(extra) == 0);
	fails(close(extra), EBADF);
	check(fdetach(path) == 0);
	fails(fdetach(path), EINVAL);
	other = open("other", O_RDWR);
	check(other != -1 && ask(other, "echo from the handler", answer, sizeof(answer)) == 0);
	check(strcmp(answer, "from the handler") == 0 && close(other) == 0);
	deeds_done++;
}

static void serve(void *cookie, char *argument, size_t size, door_desc_t *descriptors, uint_t descriptor_count)
{
	(void)cookie;
	(void)descriptors;
	(void)descriptor_count;
	door_return(argument, size, NULL, 0);
}

static void prepare(const char *at)
{
	path = at;
	extra = dup(served);
	touch(path);
	check(extra != -1 && fattach(extra, path) == 0);
}

static void *interrupt(void *thread)
{
	wait_for("now"); /* the script has seen that it waits */
	check(pthread_kill(*(pthread_t *)thread, SIGUSR1) == 0);
	return NULL;
}

static void in_a_call(void)
{
	pthread_t self = pthread_self(), other;
	char answer[64];

	prepare("called");
	other = thread_of(interrupt, &self);
	say("call: %s", error_name(ask(door, "hold go x", answer, sizeof(answer))));
	pthread_join(other, NULL);
	check(deeds_done == 1);
	touch("go");
	check(ask(door, "echo x", answer, sizeof(answer)) == 0 && strcmp(answer, "x") == 0);
}

static void *serve_privately(void *unused)
{
	sigset_t one;

	sigemptyset(&one);
	sigaddset(&one, SIGUSR1);
	pthread_sigmask(SIG_UNBLOCK, &one, NULL);
	check(door_bind(served) == 0);
	door_return(NULL, 0, NULL, 0);
	say("door_return: %s", error_name(errno));
	return unused;
}

static void in_a_return(void)
{
	pthread_t thread = thread_of(serve_privately, NULL);
	char answer[64];

	check(ask(served, "y", answer, sizeof(answer)) == 0 && strcmp(answer, "y") == 0);
	prepare("returned");
	check(pthread_kill(thread, SIGUSR1) == 0);
	while (deeds_done < 2)
		usleep(1000);
	/* the same thread goes on to serve */
	check(ask(served, "z", answer, sizeof(answer)) == 0 && strcmp(answer, "z") == 0);
}

int main(void)
{
	struct sigaction action;
	sigset_t one;

	memset(&action, 0, sizeof(action));
	action.sa_handler = do_deeds;
	check(sigaction(SIGUSR1, &action, NULL) == 0);
	door = open("w", O_RDWR);
	served = door_create(serve, NULL, DOOR_PRIVATE);
	in_a_call();
	prepare("run");
	check(raise(SIGUSR1) == 0 && deeds_done == 2);
	deeds_done = 1;
	sigemptyset(&one);
	sigaddset(&one, SIGUSR1);
	check(pthread_sigmask(SIG_BLOCK, &one, NULL) == 0);
	in_a_return();
	say("done");
	return 0;
}
