/*
 * mainless server PATH | client PATH: main ends by pthread_exit, while the program's other threads go on. The server serves until it is
 * ended; the client's last thread ends the process, whose status is then 0, as exit(3) by it would be.
 */
#include "test.h"

enum { THREADS = 3 };

static int door;

static void serve(void *cookie, char *argument, size_t size, door_desc_t *descriptors, uint_t descriptor_count)
{
	(void)cookie;
	(void)descriptors;
	(void)descriptor_count;
	door_return(argument, size, NULL, 0);
}

static void at_end(void) { say("the process ends"); }

static void *call(void *main_thread)
{
	char answer[64];

	pthread_join(*(pthread_t *)main_thread, NULL);
	check(ask(door, "echo x", answer, sizeof(answer)) == 0 && strcmp(answer, "x") == 0);
	say("answered");
	return NULL;
}

static void *call_too(void *unused)
{
	char answer[64];

	wait_for("go");
	check(ask(door, "echo x", answer, sizeof(answer)) == 0 && strcmp(answer, "x") == 0);
	say("answered");
	return unused;
}

int main(int argc, char **argv)
{
	static pthread_t self;
	char answer[64];
	int i;

	if (argc != 3)
		return 2;
	self = pthread_self();
	if (strcmp(argv[1], "server") == 0) {
		serve_at(argv[2], serve, NULL, 0);
		pthread_exit(NULL);
	}
	atexit(at_end);
	door = open(argv[2], O_RDWR);
	check(ask(door, "echo main", answer, sizeof(answer)) == 0);
	pthread_detach(thread_of(call, &self));
	for (i = 1; i < THREADS; i++)
		pthread_detach(thread_of(call_too, NULL));
	touch("main_ends");
	pthread_exit(NULL);
}
