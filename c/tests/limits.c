/*
 * limits LIMIT: run with `doord -l LIMIT`, so that a process has so many descriptors of doors. What comes with a call or its results comes
 * whole or not at all.
 */
#include "test.h"

static int limit;

static void drop(void *cookie, char *argument, size_t size, door_desc_t *descriptors, uint_t descriptor_count)
{
	(void)cookie;
	(void)argument;
	(void)size;
	while (descriptor_count > 0)
		check(close(descriptors[--descriptor_count].d_data.d_desc.d_descriptor) == 0);
	give("dropped");
}

/* As many descriptors of its own door go back as the argument has bytes. */
static void serve(void *cookie, char *argument, size_t size, door_desc_t *descriptors, uint_t descriptor_count)
{
	static int own = -1;
	door_desc_t many[16];
	size_t i;

	(void)cookie;
	if (own == -1)
		own = open("limits", O_RDWR);
	if (descriptor_count > 0)
		drop(cookie, argument, size, descriptors, descriptor_count);
	memset(many, 0, sizeof(many));
	for (i = 0; i < size; i++) {
		many[i].d_attributes = DOOR_DESCRIPTOR;
		many[i].d_data.d_desc.d_descriptor = own;
	}
	door_return(NULL, 0, many, (uint_t)size);
	say("door_return: %s", error_name(errno));
}

static int server(void)
{
	serve_at("limits", serve, NULL, 0);
	return pause_for_good();
}

/* The error of a call that passes so many descriptors and gets so many back; those are closed. */
static int call_with(int door, uint_t sent, size_t wanted)
{
	static char bytes[16], room[1024];
	door_desc_t many[16];
	uint_t i;
	door_arg_t call = { bytes, wanted, many, sent, room, sizeof(room) };

	memset(many, 0, sizeof(many));
	for (i = 0; i < sent; i++) {
		many[i].d_attributes = DOOR_DESCRIPTOR;
		many[i].d_data.d_desc.d_descriptor = door;
	}
	if (door_call(door, &call) == -1)
		return errno;
	check(call.desc_num == (sent > 0 ? 0 : wanted));
	for (i = 0; i < call.desc_num; i++)
		check(close(call.desc_ptr[i].d_data.d_desc.d_descriptor) == 0);
	return 0;
}

int main(int argc, char **argv)
{
	pid_t process = beside(server);
	int door, i, before, copies[300];

	limit = argc > 1 ? atoi(argv[1]) : 8;
	door = door_at("limits");
	before = descriptors_open();
	check(call_with(door, 1, 0) == 0);
	check(call_with(door, 0, 1) == 0);
	/* the server has two: its door, and a copy */
	check(call_with(door, (uint_t)limit - 2, 0) == 0);
	check(call_with(door, (uint_t)limit - 1, 0) == EMFILE);
	check(call_with(door, 0, (size_t)limit - 1) == 0);
	check(call_with(door, 0, (size_t)limit) == EMFILE);
	check(descriptors_open() == before);
	for (i = 1; i < limit; i++) {
		copies[i] = dup(door);
		check(copies[i] != -1);
	}
	fails(dup(door), EMFILE);
	fails(open("limits", O_RDWR), EMFILE);
	fails(dup2(door, 200), EMFILE);
	fails(door_create(drop, NULL, 0), EMFILE);
	check(call_with(door, 1, 0) == 0 && call_with(door, 0, 1) == EMFILE);
	for (i = 1; i < limit; i++)
		check(close(copies[i]) == 0);
	check(call_with(door, 0, 1) == 0 && descriptors_open() == before);
	kill(process, SIGKILL);
	end_of(process);
	say("done");
	return 0;
}
