/*
 * becomes PROGRAM WORD ..: makes the door `gone` and opens the door `w`, and becomes PROGRAM. No door passes an exec. `becomes -k PATH PROGRAM
 * WORD ..` opens the door at PATH, and does not have it closed by the exec.
 */
#include "test.h"

static void serve(void *cookie, char *argument, size_t size, door_desc_t *descriptors, uint_t descriptor_count)
{
	(void)cookie;
	(void)argument;
	(void)size;
	(void)descriptors;
	(void)descriptor_count;
	give("ok");
}

int main(int argc, char **argv)
{
	char answer[64];
	int door;

	if (argc < 2)
		return 2;
	if (argc > 3 && strcmp(argv[1], "-k") == 0) {
		door = open(argv[2], O_RDWR);
		check(ask(door, "echo x", answer, sizeof(answer)) == 0 && fcntl(door, F_SETFD, 0) == 0);
		execvp(argv[3], argv + 3);
		return 1;
	}
	serve_at("gone", serve, NULL, 0);
	door = open("w", O_RDWR);
	check(ask(door, "echo x", answer, sizeof(answer)) == 0);
	execvp(argv[1], argv + 1);
	return 1;
}
