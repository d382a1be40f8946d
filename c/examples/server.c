/*
 * server PATH: squares numbers.
 *
 * It makes a door, attaches it to the file PATH, and waits. For each call one of the threads that the door library keeps runs square().
 */
#include <door.h>
#include <fcntl.h>
#include <stdio.h>
#include <string.h>
#include <stropts.h>
#include <unistd.h>

/* The server procedure: the argument is an int, and the result its square. */
static void square(void *cookie, char *argument, size_t size, door_desc_t *descriptors, uint_t descriptor_count)
{
	int number;
	long long result;

	(void)cookie;
	(void)descriptors;
	(void)descriptor_count;
	if (size != sizeof(number))
		door_return(NULL, 0, NULL, 0); /* this client gets an empty answer */
	memcpy(&number, argument, sizeof(number));
	result = (long long)number * number;
	door_return((char *)&result, sizeof(result), NULL, 0);
	/* door_return comes back only where it failed */
	perror("door_return");
}

int main(int argc, char **argv)
{
	int door, file;

	if (argc != 2) {
		fprintf(stderr, "usage: server PATH\n");
		return 2;
	}
	door = door_create(square, NULL, 0);
	if (door == -1) {
		perror("door_create");
		return 1;
	}
	/* A door is attached to a file that is there. */
	file = open(argv[1], O_CREAT | O_RDWR, 0644);
	if (file == -1) {
		perror(argv[1]);
		return 1;
	}
	close(file);
	if (fattach(door, argv[1]) == -1) {
		perror("fattach");
		return 1;
	}
	for (;;)
		pause();
}
