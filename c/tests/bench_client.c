/*
 * bench_client PATH BYTES TIMES [FILE]: so many calls of the door at PATH with so many bytes. Prints microseconds a call. With FILE it makes
 * a twentieth of them first, says `ready` on the error stream, and waits until the file is there.
 */
#include "test.h"

#include <time.h>

static double now(void)
{
	struct timespec time;

	clock_gettime(CLOCK_MONOTONIC, &time);
	return (double)time.tv_sec + (double)time.tv_nsec / 1e9;
}

static void call_often(int door, size_t size, int count)
{
	char bytes[4096], results[4096];
	int i;

	memset(bytes, 'x', sizeof(bytes));
	for (i = 0; i < count; i++) {
		door_arg_t call = { bytes, size, NULL, 0, results, sizeof(results) };

		check(door_call(door, &call) == 0 && call.data_size == size);
	}
}

int main(int argc, char **argv)
{
	int door, times;
	size_t size;
	double begin;

	if (argc < 4)
		return 2;
	size = strtoul(argv[2], NULL, 10);
	times = atoi(argv[3]);
	door = open(argv[1], O_RDWR);
	check(door != -1 && size <= 4096);
	call_often(door, size, 1 + times / 20);
	if (argc > 4) {
		fprintf(stderr, "ready\n");
		wait_for(argv[4]);
	}
	begin = now();
	call_often(door, size, times);
	printf("%.3f\n", (now() - begin) / times * 1e6);
	return 0;
}
