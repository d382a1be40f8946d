/*
 * helper PATH [main]: a thread makes the door and attaches it, and ends; so does main, and the library's threads serve on. With `main` main
 * serves, too.
 */
#include "test.h"

static void serve(void *cookie, char *argument, size_t size, door_desc_t *descriptors, uint_t descriptor_count)
{
	(void)cookie;
	(void)argument;
	(void)descriptors;
	(void)descriptor_count;
	if (size == 9)
		exit(5);
	give("served");
}

static void *make(void *path)
{
	serve_at(path, serve, NULL, 0);
	return NULL;
}

int main(int argc, char **argv)
{
	if (argc < 2)
		return 2;
	pthread_join(thread_of(make, argv[1]), NULL);
	if (argc > 2) {
		door_return(NULL, 0, NULL, 0);
		say("door_return: %s", error_name(errno));
	}
	pthread_exit(NULL);
}
