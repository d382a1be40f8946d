/* client PATH NUMBER: asks the server whose door is attached to PATH for the square of NUMBER, and prints it. */
#include <door.h>
#include <fcntl.h>
#include <stdio.h>
#include <stdlib.h>
#include <string.h>
#include <unistd.h>

int main(int argc, char **argv)
{
	int door, number;
	long long result;
	door_arg_t call;

	if (argc != 3) {
		fprintf(stderr, "usage: client PATH NUMBER\n");
		return 2;
	}
	door = open(argv[1], O_RDWR);
	if (door == -1) {
		perror(argv[1]);
		return 1;
	}
	number = atoi(argv[2]);
	call.data_ptr = (char *)&number;
	call.data_size = sizeof(number);
	call.desc_ptr = NULL;
	call.desc_num = 0;
	call.rbuf = (char *)&result;
	call.rsize = sizeof(result);
	if (door_call(door, &call) == -1) {
		perror("door_call");
		return 1;
	}
	if (call.data_size != sizeof(result)) {
		fprintf(stderr, "client: the answer has %zu bytes\n", call.data_size);
		return 1;
	}
	/* The results stand where data_ptr says: in rbuf, if they fit there. */
	memcpy(&result, call.data_ptr, sizeof(result));
	printf("result: %lld\n", result);
	close(door);
	return 0;
}
