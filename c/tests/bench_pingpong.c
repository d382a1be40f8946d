/*
 * bench_pingpong BYTES TIMES: round trips of so many bytes between two processes over a Unix socket. Prints microseconds a round trip.
 */
#include "test.h"

#include <sys/socket.h>
#include <time.h>

static double now(void)
{
	struct timespec time;

	clock_gettime(CLOCK_MONOTONIC, &time);
	return (double)time.tv_sec + (double)time.tv_nsec / 1e9;
}

/* A stream may come in parts. */
static int receive(int socket, char *bytes, size_t size)
{
	size_t got = 0;

	while (got < size) {
		ssize_t part = recv(socket, bytes + got, size - got, 0);

		if (part <= 0)
			return 0;
		got += (size_t)part;
	}
	return 1;
}

int main(int argc, char **argv)
{
	static char bytes[65536];
	size_t size = argc > 1 ? strtoul(argv[1], NULL, 10) : 80;
	int i, times = argc > 2 ? atoi(argv[2]) : 10000, ends[2];
	pid_t other;
	double begin;

	check(size > 0 && size <= sizeof(bytes) && socketpair(AF_UNIX, SOCK_STREAM, 0, ends) == 0);
	other = fork();
	if (other == 0) {
		close(ends[0]);
		while (receive(ends[1], bytes, size) && send(ends[1], bytes, size, 0) == (ssize_t)size)
			;
		_exit(0);
	}
	close(ends[1]);
	begin = now();
	for (i = 0; i < times; i++) {
		check(send(ends[0], bytes, size, 0) == (ssize_t)size);
		check(receive(ends[0], bytes, size));
	}
	printf("%.3f\n", (now() - begin) / times * 1e6);
	close(ends[0]);
	return end_of(other) == 0 ? 0 : 1;
}
