/* threads TIMES: so many threads, one after the other; each opens the door w, calls it, closes it and ends. */
#include "test.h"

static void *call(void *number)
{
	char request[64], answer[64];
	int door = open("w", O_RDWR);

	snprintf(request, sizeof(request), "echo %d", (int)(intptr_t)number);
	check(ask(door, request, answer, sizeof(answer)) == 0 && strcmp(answer, request + 5) == 0);
	check(close(door) == 0);
	return NULL;
}

int main(int argc, char **argv)
{
	int i, before, times = argc > 1 ? atoi(argv[1]) : 1000;

	pthread_join(thread_of(call, NULL), NULL);
	before = descriptors_open();
	for (i = 0; i < times; i++)
		pthread_join(thread_of(call, (void *)(intptr_t)i), NULL);
	check(descriptors_open() == before);
	say("done");
	return 0;
}
