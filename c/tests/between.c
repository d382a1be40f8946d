/*
 * between: what a process does while it forks, after the kernel's fork and before the system's, as other threads may; here
 * a handler of pthread_atfork(3) does it. A door that is made then is none of the child's: there its descriptor is EBADF,
 * and does not lead to the door that had its number before. What is closed then the child does not hold, either.
 */
#include "test.h"

static int kept, first, second, watched, copy;

static void serve(void *cookie, char *argument, size_t size, door_desc_t *descriptors, uint_t descriptor_count)
{
	(void)cookie;
	(void)size;
	(void)descriptors;
	(void)descriptor_count;
	if (argument == DOOR_UNREF_DATA)
		touch("unreferenced");
	give("ok");
}

static void prepare(void)
{
	check(close(first) == 0);
	second = door_create(serve, (void *)2, 0);
	check(second == first);
	check(close(copy) == 0);
}

static int child(void)
{
	char answer[8];
	door_info_t info;

	check(door_info(kept, &info) == 0 && info.di_data == 3);
	fails(door_info(second, &info), EBADF);
	check(ask(second, "x", answer, sizeof(answer)) == EBADF);
	check(close(second) == 0);
	fails(close(second), EBADF);
	check(close(watched) == 0);
	wait_for("unreferenced"); /* the child lives, and holds nothing of it */
	check(ask(kept, "x", answer, sizeof(answer)) == 0);
	/* its numbers are free for doors of its own */
	second = door_create(serve, (void *)4, 0);
	check(door_info(second, &info) == 0 && info.di_data == 4 && info.di_target == getpid());
	check(ask(second, "x", answer, sizeof(answer)) == 0 && strcmp(answer, "ok") == 0);
	return 5;
}

int main(void)
{
	char answer[8];
	door_info_t info;

	kept = door_create(serve, (void *)3, 0);
	first = door_create(serve, (void *)1, 0);
	watched = door_create(serve, NULL, DOOR_UNREF);
	copy = dup(watched);
	check(kept != -1 && first != -1 && watched != -1 && copy != -1);
	check(pthread_atfork(prepare, NULL, NULL) == 0);
	check(end_of(beside(child)) == 5);
	check(door_info(second, &info) == 0 && info.di_data == 2);
	check(ask(second, "x", answer, sizeof(answer)) == 0 && strcmp(answer, "ok") == 0);
	say("done");
	return 0;
}
