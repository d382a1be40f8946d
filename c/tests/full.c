/* full PATH NAME: a client of the file server that has no free descriptor: it is told EMFILE, nothing is left open, and it goes on. */
#include "test.h"

#include <sys/resource.h>

static int call(int door, const char *name, char *results, size_t room, door_arg_t *it)
{
	memset(it, 0, sizeof(*it));
	it->data_ptr = (char *)(uintptr_t)name;
	it->data_size = strlen(name);
	it->rbuf = results;
	it->rsize = room;
	return door_call(door, it) == 0 ? 0 : errno;
}

int main(int argc, char **argv)
{
	struct rlimit limit = { 40, 40 };
	char results[256];
	door_arg_t it;
	int i, door, last = -1, next;

	if (argc != 3)
		return 2;
	setrlimit(RLIMIT_NOFILE, &limit);
	door = open(argv[1], O_RDWR);
	while ((next = dup(STDIN_FILENO)) != -1)
		last = next;
	check(errno == EMFILE);
	for (i = 0; i < 3; i++)
		check(call(door, argv[2], results, sizeof(results), &it) == EMFILE);
	check(call(door, "missing", results, sizeof(results), &it) == 0 && it.desc_num == 0);
	check(close(last) == 0);
	for (i = 0; i < 3; i++) {
		check(call(door, argv[2], results, sizeof(results), &it) == 0 && it.desc_num == 1);
		check(it.desc_ptr[0].d_data.d_desc.d_descriptor == last && close(last) == 0);
	}
	check(dup(STDIN_FILENO) == last && dup(STDIN_FILENO) == -1);
	say("done");
	return 0;
}
