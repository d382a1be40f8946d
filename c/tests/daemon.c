/*
 * daemon: forks of a server. A server that has a door forks a child, which calls the parent's door; the call of another thread of the
 * parent, which waits, ends with EINTR, as fork(2) has it here. The child makes a door of its own. Then the server forks in a procedure,
 * so that its client's call, by another thread of the same process, ends with EINTR.
 */
#include "test.h"

static int door;

static void serve(void *cookie, char *argument, size_t size, door_desc_t *descriptors, uint_t descriptor_count)
{
	pid_t child;

	(void)cookie;
	(void)argument;
	(void)descriptors;
	(void)descriptor_count;
	if (size == 4) {
		touch("waits");
		wait_for("forked");
	}
	if (size == 5) {
		child = fork();
		if (child == 0) {
			door_cred_t client;

			/* the child's thread serves nobody */
			fails(door_cred(&client), EINVAL);
			say("child in a procedure: %s", error_name(ask(door, "", (char[8]) { 0 }, 8)));
			_exit(0);
		}
		check(child > 0 && end_of(child) == 0);
		touch("procedure_ends");
	}
	give("ok");
}

static void *call(void *unused)
{
	char answer[8];

	say("other thread: %s", error_name(ask(door, "wait", answer, sizeof(answer))));
	return unused;
}

static void own(void *cookie, char *argument, size_t size, door_desc_t *descriptors, uint_t descriptor_count)
{
	(void)cookie;
	(void)argument;
	(void)size;
	(void)descriptors;
	(void)descriptor_count;
	give("own");
}

static int child(void)
{
	char answer[8];
	door_info_t info;
	int mine;

	check(door_info(door, &info) == 0);
	check(info.di_target == getppid() && (info.di_attributes & DOOR_LOCAL) == 0);
	fails(door_revoke(door), EPERM);
	say("child: %s", error_name(ask(door, "", answer, sizeof(answer))));
	mine = serve_at("mine", own, NULL, 0);
	check(door_info(mine, &info) == 0 && info.di_target == getpid() && (info.di_attributes & DOOR_LOCAL) != 0);
	check(ask(mine, "", answer, sizeof(answer)) == 0 && strcmp(answer, "own") == 0);
	wait_for("asked");
	return 0;
}

int main(void)
{
	pthread_t thread;
	pid_t process;
	char answer[8];
	int mine;

	door = door_create(serve, NULL, 0);
	thread = thread_of(call, NULL);
	wait_for("waits");
	process = beside(child);
	pthread_join(thread, NULL);
	touch("forked");
	mine = door_at("mine");
	check(ask(mine, "", answer, sizeof(answer)) == 0 && strcmp(answer, "own") == 0);
	touch("asked");
	check(end_of(process) == 0);
	say("parent: %s", error_name(ask(door, "fork!", answer, sizeof(answer))));
	wait_for("procedure_ends");
	return 0;
}
