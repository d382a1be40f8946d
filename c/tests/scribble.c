/* scribble FILE: writes into the descriptors of doors, reads from them, and keeps them until FILE is there. */
#include "test.h"

#include <poll.h>

int main(int argc, char **argv)
{
	int i, door[20];
	char byte, answer[64];

	if (argc != 2)
		return 2;
	for (i = 0; i < 20; i++) {
		struct pollfd one;

		door[i] = open("w", O_RDWR);
		one.fd = door[i];
		one.events = POLLIN | POLLOUT;
		check(read(door[i], &byte, 1) == -1);
		check(lseek(door[i], 0, SEEK_SET) == -1);
		if (write(door[i], "scribble", 8) == -1)
			byte = 0;
		poll(&one, 1, 0);
	}
	check(ask(door[0], "echo x", answer, sizeof(answer)) == 0);
	touch("scribbled");
	wait_for(argv[1]);
	for (i = 0; i < 20; i++)
		check(close(door[i]) == 0);
	return 0;
}
