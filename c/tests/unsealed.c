/*
 * unsealed: a program that speaks to doord without the library, as hostile does, and says that its bytes go beside the
 * kernel, in a file that is not as it should be. `unsealed refused`: doord takes none at all.
 */
#define main hostile_main
#include "hostile.c"
#undef main

enum { SEALS = F_SEAL_WRITE | F_SEAL_SHRINK | F_SEAL_GROW };

static struct raw raw;

static int memory_of(off_t size, int seals)
{
	int file = memfd_create("bytes", MFD_CLOEXEC | MFD_ALLOW_SEALING);

	check(file != -1 && ftruncate(file, size) == 0 && (seals == 0 || fcntl(file, F_ADD_SEALS, seals) == 0));
	return file;
}

/* What doord says to a call with these files, of which there are so many; -1 where it says nothing yet. */
static int call_with(const int *file, uint32_t files, uint32_t said)
{
	struct wire_request *request = request_of(&raw, 0);
	struct wire_message message = { .kind = WIRE_FILES, .a = 0, .b = request->number };

	request->op = KERNEL_OP_CALL;
	request->flags = WIRE_BESIDE;
	request->files = said;
	if (files > 0)
		check(send_message(raw.control, &message, file, files));
	return asked(&raw, 0, 300) ? (int)raw.area->slot[0].reply.error : -1;
}

static void refuses(int file, int error)
{
	int found = call_with(&file, 1, 1);

	if (found != error)
		say("wanted %s, came %s", error_name(error), error_name(found));
	close(file);
}

static void make_door(void)
{
	struct wire_request *request = request_of(&raw, 0);

	request->op = KERNEL_OP_CREATE;
	request->b = 1;
	request->data_size = 1;
	request->data[0] = 'p';
	check(asked(&raw, 0, 1000) && raw.area->slot[0].reply.error == 0);
}

int main(int argc, char **argv)
{
	int pipes[2], two[2], huge;

	(void)argv;
	if (argc > 3)
		return hostile_main(argc, argv);
	welcome(&raw);
	make_door();
	if (argc == 2) {
		refuses(memory_of(5000, SEALS), ENOTSUP);
		say("done");
		return 0;
	}
	check(pipe(pipes) == 0);
	refuses(open("/dev/zero", O_RDWR), EINVAL);
	refuses(open(".", O_RDONLY), EINVAL);
	refuses(pipes[0], EINVAL);
	refuses(memory_of(5000, 0), EINVAL);
	refuses(memory_of(5000, F_SEAL_SHRINK | F_SEAL_GROW), EINVAL);
	refuses(memory_of(5000, F_SEAL_WRITE | F_SEAL_GROW), EINVAL);
	refuses(memory_of(5000, F_SEAL_FUTURE_WRITE | F_SEAL_SHRINK | F_SEAL_GROW), EINVAL);
	/* whoever maps it may find no page for it */
	huge = memfd_create("huge", MFD_CLOEXEC | MFD_ALLOW_SEALING | MFD_HUGETLB);
	if (huge != -1 && ftruncate(huge, 2 << 20) == 0 && fcntl(huge, F_ADD_SEALS, SEALS) == 0)
		refuses(huge, EINVAL);
	refuses(memory_of(0, SEALS), EINVAL);
	refuses(memory_of(4096, SEALS), EINVAL);
	refuses(memory_of(WIRE_LONG + 1, SEALS), EINVAL);
	refuses(memory_of((off_t)1 << 50, SEALS), EINVAL);
	two[0] = two[1] = memory_of(5000, SEALS);
	check(call_with(NULL, 0, 1) == EBADF && call_with(two, 2, 1) == EBADF);
	check(call_with(two, 1, 0) == EINVAL && call_with(two, 2, 2) == EINVAL);
	/* one that is as it should be waits for a server */
	check(call_with(two, 1, 1) == -1);
	say("done");
	return 0;
}
