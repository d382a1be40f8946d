/*
 * numbers: a program that speaks to doord without the library, as hostile does. A request names a descriptor by the
 * kernel's number and by its pipe, since another thread may have closed it, and have a new one of that number: what does
 * not fit is no descriptor.
 */
#define main hostile_main
#include "hostile.c"
#undef main

static struct raw raw;

/* The error of a request about descriptor 0, whose pipe has this number; -1 where it waits. */
static int about(uint32_t op, uint64_t pipe)
{
	struct wire_request *request = request_of(&raw, 0);

	request->op = op;
	request->d = pipe;
	return asked(&raw, 0, 300) ? (int)raw.area->slot[0].reply.error : -1;
}

/* The error of a call by thread 1 that passes descriptor 0 with a pipe of this number; -1 where it waits. */
static int passing(uint64_t pipe)
{
	struct wire_request *request = request_of(&raw, 1);

	request->op = KERNEL_OP_CALL;
	request->items = 1;
	request->item[0] = pipe << WIRE_PIPE;
	return asked(&raw, 1, 300) ? (int)raw.area->slot[1].reply.error : -1;
}

/* A door whose stand-in is a pipe: the number of that. */
static uint64_t make_door(void)
{
	struct wire_request *request = request_of(&raw, 0);
	struct wire_message stand_in = { .kind = WIRE_STAND_IN, .a = 0 };
	struct stat found;
	int pipes[2];

	request->op = KERNEL_OP_CREATE;
	request->b = 1;
	request->data_size = 1;
	request->data[0] = 'p';
	check(asked(&raw, 0, 1000) && raw.area->slot[0].reply.error == 0 && raw.area->slot[0].reply.a == 0);
	check(pipe(pipes) == 0 && fstat(pipes[0], &found) == 0 && send_message(raw.control, &stand_in, pipes, 1));
	close(pipes[0]);
	return found.st_ino;
}

int main(int argc, char **argv)
{
	static const uint32_t all[] = {
		KERNEL_OP_INFO, KERNEL_OP_GET_PARAMETER, KERNEL_OP_DUPLICATE, KERNEL_OP_CALL, KERNEL_OP_REVOKE, KERNEL_OP_CLOSE,
	};
	uint64_t pipe;
	size_t i;

	if (argc > 1)
		return hostile_main(argc, argv);
	welcome(&raw);
	pipe = make_door();
	for (i = 0; i < sizeof(all) / sizeof(all[0]); i++)
		check(about(all[i], pipe + 1) == EBADF);
	check(passing(pipe + 1) == EINVAL);
	check(about(KERNEL_OP_INFO, pipe) == 0);
	check(passing(pipe) == -1);
	check(about(KERNEL_OP_CLOSE, pipe) == 0 && about(KERNEL_OP_INFO, pipe) == EBADF);
	say("done");
	return 0;
}
