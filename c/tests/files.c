/*
 * files THREADS TIMES: as many threads call at once and pass files both ways. Each file that a thread gets is the one that was meant for it:
 * it has the thread's number and the call's.
 */
#define _GNU_SOURCE 1
#include "test.h"

#include <sys/mman.h>

static int door, times;

static int file_with(long number)
{
	int file = memfd_create("number", MFD_CLOEXEC);

	if (file == -1 || pwrite(file, &number, sizeof(number), 0) != sizeof(number))
		give_up("memfd_create");
	return file;
}

static long number_in(int file)
{
	long number = -1;

	if (pread(file, &number, sizeof(number), 0) != sizeof(number))
		return -2;
	return number;
}

static door_desc_t passed(int descriptor)
{
	door_desc_t it;

	memset(&it, 0, sizeof(it));
	it.d_attributes = DOOR_DESCRIPTOR | DOOR_RELEASE;
	it.d_data.d_desc.d_descriptor = descriptor;
	return it;
}

/* The argument is a number, which each file has that comes; as many go back, with the number's negative. */
static void serve(void *cookie, char *argument, size_t size, door_desc_t *descriptors, uint_t descriptor_count)
{
	long number;
	uint_t i;
	door_desc_t results[16];

	(void)cookie;
	check(size == sizeof(number));
	memcpy(&number, argument, sizeof(number));
	for (i = 0; i < descriptor_count; i++) {
		check(number_in(descriptors[i].d_data.d_desc.d_descriptor) == number + (long)i);
		check(close(descriptors[i].d_data.d_desc.d_descriptor) == 0);
		results[i] = passed(file_with(-number - (long)i));
	}
	door_return((char *)&number, sizeof(number), results, descriptor_count);
	say("door_return: %s", error_name(errno));
}

static int server(void)
{
	serve_at("files", serve, NULL, 0);
	return pause_for_good();
}

static void call_with(long number, uint_t count)
{
	char results[sizeof(door_desc_t) * 17];
	door_desc_t many[16];
	uint_t i;
	door_arg_t call = { (char *)&number, sizeof(number), many, count, results, sizeof(results) };
	long back;

	for (i = 0; i < count; i++)
		many[i] = passed(file_with(number + (long)i));
	check(door_call(door, &call) == 0);
	check(call.data_size == sizeof(back) && call.desc_num == count);
	memcpy(&back, call.data_ptr, sizeof(back));
	check(back == number);
	for (i = 0; i < call.desc_num; i++) {
		check(number_in(call.desc_ptr[i].d_data.d_desc.d_descriptor) == -number - (long)i);
		check(close(call.desc_ptr[i].d_data.d_desc.d_descriptor) == 0);
	}
}

static void *call_often(void *thread)
{
	long i, first = ((long)(intptr_t)thread + 1) * 1000000;

	for (i = 0; i < times; i++)
		call_with(first + 100 * i, (uint_t)(i % 7 == 6 ? 16 : i % 7));
	return thread;
}

int main(int argc, char **argv)
{
	pthread_t thread[64];
	pid_t process = beside(server);
	int i, before, threads = argc > 1 ? atoi(argv[1]) : 4;

	times = argc > 2 ? atoi(argv[2]) : 100;
	door = door_at("files");
	call_with(1, 1);
	before = descriptors_open();
	for (i = 0; i < threads; i++)
		thread[i] = thread_of(call_often, (void *)(intptr_t)i);
	for (i = 0; i < threads; i++)
		pthread_join(thread[i], NULL);
	check(descriptors_open() == before);
	kill(process, SIGKILL);
	end_of(process);
	say("done");
	return 0;
}
