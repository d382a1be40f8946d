/*
 * counter PATH: keeps a number. A call without an argument gets it, one with an argument, a long, sets it, and gets what it was.
 *
 * Each of the two is done under a lock. A client that gets the number, adds to it, and sets it makes two calls, and another client may
 * come between them: see adder.c.
 */
#include <door.h>
#include <fcntl.h>
#include <pthread.h>
#include <stdio.h>
#include <string.h>
#include <stropts.h>
#include <unistd.h>

static pthread_mutex_t lock = PTHREAD_MUTEX_INITIALIZER;
static long value;

static void count(void *cookie, char *argument, size_t size, door_desc_t *descriptors, uint_t descriptor_count)
{
	long result;

	(void)cookie;
	(void)descriptors;
	(void)descriptor_count;
	pthread_mutex_lock(&lock);
	result = value;
	if (size == sizeof(value))
		memcpy(&value, argument, sizeof(value));
	pthread_mutex_unlock(&lock);
	door_return((char *)&result, sizeof(result), NULL, 0);
	perror("door_return");
}

int main(int argc, char **argv)
{
	int door, file;

	if (argc != 2) {
		fprintf(stderr, "usage: counter PATH\n");
		return 2;
	}
	door = door_create(count, NULL, DOOR_REFUSE_DESC);
	file = open(argv[1], O_CREAT | O_RDWR, 0644);
	if (door == -1 || file == -1 || close(file) == -1 || fattach(door, argv[1]) == -1) {
		perror("counter");
		return 1;
	}
	for (;;)
		pause();
}
