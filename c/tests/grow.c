/*
 * grow PATH: a private door whose threads are made by the function that door_server_create(3C) was given: one as the door is made, one more
 * whenever the last that waits is taken. It prints a line for each. A request names a file, for which the procedure waits.
 */
#include "test.h"

static pthread_mutex_t lock = PTHREAD_MUTEX_INITIALIZER;
static int door = -1, made;

static void serve(void *cookie, char *argument, size_t size, door_desc_t *descriptors, uint_t descriptor_count)
{
	char file[64] = "";

	(void)cookie;
	(void)descriptors;
	(void)descriptor_count;
	if (size > 0 && size < sizeof(file)) {
		memcpy(file, argument, size);
		wait_for(file);
	}
	give("ok");
}

static void *serve_privately(void *unused)
{
	int it;

	/* the first is made before door_create has answered */
	for (;;) {
		pthread_mutex_lock(&lock);
		it = door;
		pthread_mutex_unlock(&lock);
		if (it != -1)
			break;
		usleep(2000);
	}
	check(door_bind(it) == 0);
	door_return(NULL, 0, NULL, 0);
	return unused;
}

static void make(door_info_t *info)
{
	check(info != NULL);
	if (info == NULL)
		return;
	check((info->di_attributes & DOOR_PRIVATE) != 0 && info->di_data == 77 && info->di_proc == (door_ptr_t)(uintptr_t)serve);
	check(info->di_target == getpid());
	pthread_mutex_lock(&lock);
	made++;
	say("thread %d", made);
	pthread_mutex_unlock(&lock);
	pthread_detach(thread_of(serve_privately, NULL));
}

int main(int argc, char **argv)
{
	door_server_func_t *before;
	int it;

	if (argc != 2)
		return 2;
	before = door_server_create(make);
	check(before != make && door_server_create(before) == make && door_server_create(make) == before);
	it = door_create(serve, (void *)77, DOOR_PRIVATE);
	pthread_mutex_lock(&lock);
	check(it != -1 && made == 1);
	door = it;
	pthread_mutex_unlock(&lock);
	touch(argv[1]);
	check(fattach(it, argv[1]) == 0);
	return pause_for_good();
}
