/*
 * common PATH: the threads of the common pool are made by the program's own function, with NULL: one with the first door that is not
 * private, one more whenever the last that waits is taken. It prints a line for each.
 */
#include "test.h"

static void serve(void *cookie, char *argument, size_t size, door_desc_t *descriptors, uint_t descriptor_count)
{
	char file[64] = "";

	(void)cookie;
	(void)descriptors;
	(void)descriptor_count;
	if (size > 0 && size < sizeof(file)) {
		memcpy(file, argument, size);
		wait_for(file);
	}
	give("ok");
}

static void *serve_all(void *unused)
{
	pthread_setcancelstate(PTHREAD_CANCEL_DISABLE, NULL);
	door_return(NULL, 0, NULL, 0);
	return unused;
}

static void make(door_info_t *info)
{
	check(info == NULL);
	say("a thread");
	pthread_detach(thread_of(serve_all, NULL));
}

int main(int argc, char **argv)
{
	if (argc != 2)
		return 2;
	door_server_create(make);
	serve_at(argv[1], serve, NULL, 0);
	return pause_for_good();
}
