/*
 * adder PATH TIMES: adds 1 to the number of the counter at PATH so many times, and prints what the number is then.
 *
 * It has a race: two adders at once may both get 5, and both set 6. One of the two additions is lost then.
 */
#include <door.h>
#include <fcntl.h>
#include <stdio.h>
#include <stdlib.h>
#include <string.h>
#include <unistd.h>

/* One call of the counter, with an argument or, if it is NULL, without. */
static long call_counter(int door, const long *argument)
{
	long result, sent = argument == NULL ? 0 : *argument;
	door_arg_t call = { (char *)&sent, argument == NULL ? 0 : sizeof(sent), NULL, 0, (char *)&result, sizeof(result) };

	if (door_call(door, &call) == -1) {
		perror("door_call");
		exit(1);
	}
	if (call.data_size != sizeof(result)) {
		fprintf(stderr, "adder: no counter\n");
		exit(1);
	}
	memcpy(&result, call.data_ptr, sizeof(result));
	return result;
}

int main(int argc, char **argv)
{
	int door, i;

	if (argc != 3) {
		fprintf(stderr, "usage: adder PATH TIMES\n");
		return 2;
	}
	door = open(argv[1], O_RDWR);
	if (door == -1) {
		perror(argv[1]);
		return 1;
	}
	for (i = 0; i < atoi(argv[2]); i++) {
		long value = call_counter(door, NULL);

		/* Here another adder may come. */
		value++;
		call_counter(door, &value);
	}
	printf("%ld\n", call_counter(door, NULL));
	close(door);
	return 0;
}
