/* begins PATH: a door that is made before main, in a constructor, and whose path is taken away after it, in a handler of atexit(3). */
#include "test.h"

static int door;
static char path[4096];

static void serve(void *cookie, char *argument, size_t size, door_desc_t *descriptors, uint_t descriptor_count)
{
	(void)cookie;
	(void)argument;
	(void)size;
	(void)descriptors;
	(void)descriptor_count;
	give("ok");
}

static void end(void)
{
	check(fdetach(path) == 0);
	check(door_revoke(door) == 0);
	say("detached");
}

__attribute__((constructor)) static void begin(void)
{
	door = door_create(serve, NULL, 0);
	check(door != -1);
}

__attribute__((destructor)) static void last(void)
{
	door_info_t info;

	fails(door_info(door, &info), EBADF);
	say("destructor");
}

int main(int argc, char **argv)
{
	char answer[8];

	if (argc != 2)
		return 2;
	snprintf(path, sizeof(path), "%s", argv[1]);
	touch(path);
	check(fattach(door, path) == 0);
	atexit(end);
	check(ask(door, "x", answer, sizeof(answer)) == 0);
	wait_for("end");
	return 4;
}
