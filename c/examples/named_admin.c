/* named_admin ADMIN: tells named to take no new clients. */
#include <door.h>
#include <errno.h>
#include <fcntl.h>
#include <stdio.h>
#include <unistd.h>

int main(int argc, char **argv)
{
	int door;
	char answer[64];
	door_arg_t call = { NULL, 0, NULL, 0, answer, sizeof(answer) };

	if (argc != 2) {
		fprintf(stderr, "usage: named_admin ADMIN\n");
		return 2;
	}
	door = open(argv[1], O_RDWR);
	if (door == -1) {
		perror(argv[1]);
		return 1;
	}
	if (door_call(door, &call) == 0) {
		printf("%.*s\n", (int)call.data_size, call.data_ptr);
	} else if (errno == EINTR) {
		/* It had no client any more, and ended before it answered. */
		printf("named has ended\n");
	} else {
		perror("door_call");
		return 1;
	}
	close(door);
	return 0;
}
