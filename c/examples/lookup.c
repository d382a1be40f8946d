/* lookup NAMES NAME..: prints the address that named has for each name. All are asked through one descriptor. */
#include <door.h>
#include <fcntl.h>
#include <stdio.h>
#include <string.h>
#include <unistd.h>

int main(int argc, char **argv)
{
	int door, i;
	char answer[64];

	if (argc < 3) {
		fprintf(stderr, "usage: lookup NAMES NAME..\n");
		return 2;
	}
	door = open(argv[1], O_RDONLY);
	if (door == -1) {
		perror(argv[1]);
		return 1;
	}
	for (i = 2; i < argc; i++) {
		door_arg_t call = { argv[i], strlen(argv[i]), NULL, 0, answer, sizeof(answer) };

		if (door_call(door, &call) == -1) {
			perror(argv[i]);
			return 1;
		}
		printf("%s %.*s\n", argv[i], (int)call.data_size, call.data_ptr);
	}
	close(door);
	return 0;
}
