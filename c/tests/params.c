/* params: the parameters of a door, and what a call is told that does not keep to them. */
#include "test.h"

#include <limits.h>

static int door, refusing;

static void serve(void *cookie, char *argument, size_t size, door_desc_t *descriptors, uint_t descriptor_count)
{
	(void)argument;
	(void)size;
	while (descriptor_count > 0)
		check(close(descriptors[--descriptor_count].d_data.d_desc.d_descriptor) == 0);
	/* the client's calls are counted by the cookie's door, which sets its limits one after the other */
	(void)cookie;
	give("ok");
}

static int set_and_get(int it, int parameter, size_t value)
{
	size_t found = 12345;

	return door_setparam(it, parameter, value) == 0 && door_getparam(it, parameter, &found) == 0 && found == value;
}

static int server(void)
{
	size_t value;

	door = serve_at("params", serve, NULL, 0);
	refusing = serve_at("refusing", serve, NULL, DOOR_REFUSE_DESC);
	check(door_getparam(door, DOOR_PARAM_DATA_MAX, &value) == 0 && value == SIZE_MAX);
	check(door_getparam(door, DOOR_PARAM_DATA_MIN, &value) == 0 && value == 0);
	check(door_getparam(door, DOOR_PARAM_DESC_MAX, &value) == 0 && value == INT_MAX);
	check(door_getparam(refusing, DOOR_PARAM_DESC_MAX, &value) == 0 && value == 0);
	fails(door_getparam(door, 0, &value), EINVAL);
	fails(door_getparam(door, 4, &value), EINVAL);
	fails(door_setparam(door, 4, 1), EINVAL);
	fails(door_getparam(STDIN_FILENO, DOOR_PARAM_DATA_MAX, &value), EBADF);
	fails(door_setparam(1000, DOOR_PARAM_DATA_MAX, 1), EBADF);
	fails(door_setparam(refusing, DOOR_PARAM_DESC_MAX, 1), ENOTSUP);
	check(door_setparam(refusing, DOOR_PARAM_DESC_MAX, 0) == 0);
	check(set_and_get(door, DOOR_PARAM_DATA_MAX, 10));
	fails(door_setparam(door, DOOR_PARAM_DATA_MIN, 11), EINVAL);
	check(set_and_get(door, DOOR_PARAM_DATA_MIN, 5));
	fails(door_setparam(door, DOOR_PARAM_DATA_MAX, 4), EINVAL);
	check(set_and_get(door, DOOR_PARAM_DESC_MAX, 2));
	touch("set");
	wait_for("unset");
	check(set_and_get(door, DOOR_PARAM_DATA_MAX, SIZE_MAX));
	check(set_and_get(door, DOOR_PARAM_DATA_MIN, 0));
	check(set_and_get(door, DOOR_PARAM_DATA_MAX, 5000));
	check(set_and_get(door, DOOR_PARAM_DESC_MAX, 0));
	touch("set_again");
	return pause_for_good();
}

/* The error of a call with so many bytes and descriptors. */
static int call_with(int it, size_t size, uint_t count)
{
	static char bytes[6000];
	door_desc_t many[20];
	uint_t i;
	int file = open("/dev/null", O_RDWR);
	door_arg_t call = { bytes, size, many, count, NULL, 0 };
	int answer;

	memset(many, 0, sizeof(many));
	for (i = 0; i < count; i++) {
		many[i].d_attributes = DOOR_DESCRIPTOR;
		many[i].d_data.d_desc.d_descriptor = file;
	}
	answer = door_call(it, &call) == 0 ? 0 : errno;
	close(file);
	return answer;
}

int main(void)
{
	pid_t process = beside(server);
	size_t value;
	int it = door_at("params"), other = door_at("refusing");

	wait_for("set");
	fails(door_setparam(it, DOOR_PARAM_DATA_MAX, 1), EPERM);
	check(door_getparam(it, DOOR_PARAM_DATA_MAX, &value) == 0 && value == 10);
	check(door_getparam(it, DOOR_PARAM_DATA_MIN, &value) == 0 && value == 5);
	check(door_getparam(it, DOOR_PARAM_DESC_MAX, &value) == 0 && value == 2);
	check(call_with(it, 4, 0) == ENOBUFS);
	check(call_with(it, 5, 0) == 0);
	check(call_with(it, 10, 2) == 0);
	check(call_with(it, 11, 0) == ENOBUFS);
	check(call_with(it, 4097, 0) == ENOBUFS);
	check(call_with(it, 10, 3) == ENFILE);
	check(call_with(it, 11, 3) == ENOBUFS);
	check(call_with(it, 10, 17) == ENFILE);
	check(call_with(other, 0, 0) == 0);
	check(call_with(other, 0, 1) == ENOTSUP);
	fails(door_call(it, NULL), ENOBUFS);
	touch("unset");
	wait_for("set_again");
	check(call_with(it, 4096, 0) == 0);
	check(call_with(it, 5000, 0) == E2BIG);
	check(call_with(it, 0, 1) == ENFILE);
	kill(process, SIGKILL);
	end_of(process);
	say("done");
	return 0;
}
