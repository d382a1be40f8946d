/* sizes: arguments and results from none to the most bytes, results that do not fit into the buffer, and calls without a buffer. */
#include "test.h"

#include <sys/mman.h>

enum { MOST = 4096 };

static char fill[MOST + 1];

/* The argument's size is answered by as many bytes as its first two say, with so many descriptors of /dev/null as the third says. */
static void serve(void *cookie, char *argument, size_t size, door_desc_t *descriptors, uint_t descriptor_count)
{
	static const size_t sizes[] = { 0, 1, 7, 8, 16, 17, 1000, 4095, 4096, 4097 };
	size_t i;
	door_desc_t null;

	(void)cookie;
	(void)descriptors;
	check(descriptor_count == 0);
	if (size == 0) {
		check(argument == NULL);
		door_return(fill, 5, NULL, 0);
	}
	check((uintptr_t)argument % 8 == 0);
	for (i = 1; i < size; i++)
		check(argument[i] == fill[i]);
	memset(&null, 0, sizeof(null));
	null.d_attributes = DOOR_DESCRIPTOR | DOOR_RELEASE;
	null.d_data.d_desc.d_descriptor = open("/dev/null", O_RDWR);
	i = (unsigned char)argument[0];
	if (i >= 100) {
		door_return(fill, sizes[i - 100], &null, 1);
	} else {
		close(null.d_data.d_desc.d_descriptor);
		door_return(fill, sizes[i], NULL, 0);
	}
	/* more than the kernel takes: it goes on, and may return something else */
	check(errno == E2BIG && sizes[i % 100] == 4097);
	if (i >= 100)
		check(close(null.d_data.d_desc.d_descriptor) == 0);
	door_return(fill, 3, NULL, 0);
}

static int server(void)
{
	serve_at("sizes", serve, NULL, 0);
	return pause_for_good();
}

static void arguments(int door)
{
	static const size_t sizes[] = { 1, 2, 8, 100, 4095, 4096 };
	size_t i;
	char sent[MOST + 1], results[64];

	memcpy(sent, fill, sizeof(sent));
	sent[0] = 2;
	for (i = 0; i < sizeof(sizes) / sizeof(sizes[0]); i++) {
		door_arg_t call = { sent, sizes[i], NULL, 0, results, sizeof(results) };

		check(door_call(door, &call) == 0);
		check(call.data_ptr == results && call.data_size == 7 && memcmp(results, fill, 7) == 0);
		check(call.rbuf == results && call.rsize == sizeof(results) && call.desc_num == 0);
	}
	for (i = 0; i < 2; i++) {
		door_arg_t call = { sent, MOST + 1, NULL, 0, results, sizeof(results) }, before = call;

		fails(door_call(door, &call), E2BIG);
		check(memcmp(&call, &before, sizeof(call)) == 0); /* nothing of it is changed by a failure */
	}
}

/* One call whose results are of the size with the number, with a descriptor or without, into a buffer of so many bytes. */
static void results_of(int door, int number, size_t size, int descriptors, char *buffer, size_t room)
{
	char sent = (char)(number + 100 * descriptors);
	door_arg_t call = { &sent, 1, NULL, 0, buffer, room };
	size_t wanted = size;

	if (descriptors != 0)
		wanted = (size + 7) / 8 * 8 + sizeof(door_desc_t);
	check(door_call(door, &call) == 0);
	check(call.data_size == size && (int)call.desc_num == descriptors);
	check(call.rsize >= wanted);
	if (wanted <= room) {
		check(call.rbuf == buffer && call.rsize == room);
	} else {
		check(call.rbuf != buffer && call.rbuf != NULL);
		check((uintptr_t)call.rbuf % 4096 == 0);
	}
	if (size > 0)
		check(call.data_ptr == call.rbuf && memcmp(call.data_ptr, fill, size) == 0);
	if (descriptors != 0) {
		check((char *)call.desc_ptr >= call.rbuf + size && (char *)(call.desc_ptr + 1) <= call.rbuf + call.rsize);
		check(close(call.desc_ptr[0].d_data.d_desc.d_descriptor) == 0);
	}
	if (call.rbuf != buffer && call.rbuf != NULL)
		check(munmap(call.rbuf, call.rsize) == 0);
}

static void all_results(int door)
{
	static const size_t sizes[] = { 0, 1, 7, 8, 16, 17, 1000, 4095, 4096 }, rooms[] = { 0, 1, 8, 16, 32, 1024, 8192 };
	static char buffer[8192];
	size_t i, j;
	int descriptors;

	for (i = 0; i < sizeof(sizes) / sizeof(sizes[0]); i++) {
		for (j = 0; j < sizeof(rooms) / sizeof(rooms[0]); j++) {
			for (descriptors = 0; descriptors < 2; descriptors++) {
				results_of(door, (int)i, sizes[i], descriptors, buffer, rooms[j]);
				results_of(door, (int)i, sizes[i], descriptors, NULL, 0);
			}
		}
	}
}

static void special(int door)
{
	char both[MOST], refused[2] = { 9, 109 };
	int i;
	door_arg_t call = { both, 1, NULL, 0, both, sizeof(both) };

	/* the same memory for argument and results */
	both[0] = 6;
	check(door_call(door, &call) == 0 && call.data_ptr == both && call.data_size == 1000 && memcmp(both, fill, 1000) == 0);
	/* nothing at all */
	check(door_call(door, NULL) == 0);
	check(door_call(door, NULL) == 0);
	/* results that are not asked for */
	memset(&call, 0, sizeof(call));
	check(door_call(door, &call) == 0 && call.data_size == 5 && call.rbuf != NULL && memcmp(call.data_ptr, fill, 5) == 0);
	check(munmap(call.rbuf, call.rsize) == 0);
	/* a server that returns too much, without a descriptor and with one */
	for (i = 0; i < 2; i++) {
		door_arg_t too_much = { &refused[i], 1, NULL, 0, both, sizeof(both) };

		check(door_call(door, &too_much) == 0 && too_much.data_size == 3 && too_much.desc_num == 0);
	}
}

int main(void)
{
	pid_t process;
	int door, i, before;

	for (i = 0; i <= MOST; i++)
		fill[i] = (char)(i * 7 + i / 256);
	process = beside(server);
	door = door_at("sizes");
	before = descriptors_open();
	arguments(door);
	all_results(door);
	special(door);
	check(descriptors_open() == before);
	kill(process, SIGKILL);
	end_of(process);
	say("done");
	return 0;
}
