/*
 * bound: forks of threads that are bound to a private door. In the child the thread is bound to an invalid one: door_return is EINVAL, and
 * then it is bound to nothing. Another thread of the child, which asks first, is bound to nothing.
 */
#include "test.h"

static int door, other_first;

static void serve(void *cookie, char *argument, size_t size, door_desc_t *descriptors, uint_t descriptor_count)
{
	(void)cookie;
	(void)argument;
	(void)size;
	(void)descriptors;
	(void)descriptor_count;
	give("parent");
}

static void *is_bound_to_nothing(void *unused)
{
	door_info_t info;

	fails(door_info(DOOR_QUERY, &info), EBADF);
	fails(door_unbind(), EBADF);
	return unused;
}

static int child(void)
{
	char answer[16];

	if (other_first)
		pthread_join(thread_of(is_bound_to_nothing, NULL), NULL);
	fails(door_return(NULL, 0, NULL, 0), EINVAL);
	(void)is_bound_to_nothing(NULL);
	check(ask(door, "x", answer, sizeof(answer)) == 0 && strcmp(answer, "parent") == 0);
	return 0;
}

/* The thread binds itself, forks, and serves what the child asks. */
static void *bind_and_fork(void *pid)
{
	check(door_bind(door) == 0);
	*(pid_t *)pid = beside(child);
	touch("forked");
	door_return(NULL, 0, NULL, 0);
	return pid;
}

int main(void)
{
	pid_t pid;

	door = door_create(serve, NULL, DOOR_PRIVATE);
	for (other_first = 0; other_first < 2; other_first++) {
		pthread_detach(thread_of(bind_and_fork, &pid));
		wait_for("forked");
		check(end_of(pid) == 0);
		unlink("forked");
	}
	say("done");
	return 0;
}
