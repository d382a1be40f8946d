/* bench_server PATH: answers each call with its own bytes. */
#include "test.h"

static void echo(void *cookie, char *argument, size_t size, door_desc_t *descriptors, uint_t descriptor_count)
{
	(void)cookie;
	(void)descriptors;
	(void)descriptor_count;
	door_return(argument, size, NULL, 0);
}

int main(int argc, char **argv)
{
	if (argc != 2)
		return 2;
	serve_at(argv[1], echo, NULL, 0);
	return pause_for_good();
}
