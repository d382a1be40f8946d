/*
 * forks PATH: a client that forks. First without descriptors of doors: both processes open the door and call it. Then with one: the child
 * calls what it inherited, under the same number, closes it, and its parent's is still there. Both say what they were answered. Where what
 * the child inherited is dead its own doors are not.
 */
#include "test.h"

static int door;
static char answer[64];

static int without(void)
{
	int own = open("w", O_RDWR);

	say("child without: %s", error_name(ask(own, "echo x", answer, sizeof(answer))));
	return own == -1 ? 1 : 0;
}

static int with(void)
{
	door_info_t info;
	int own, error = ask(door, "echo x", answer, sizeof(answer));

	say("child with: %s", error_name(error));
	if (error == EBADF)
		fails(door_info(door, &info), EBADF);
	else
		check(door_info(door, &info) == 0 && info.di_target != getpid());
	own = open("w", O_RDWR);
	check(own != -1 && own != door);
	check(ask(own, "echo y", answer, sizeof(answer)) == 0);
	check(close(door) == 0);
	fails(close(door), EBADF);
	check(ask(own, "echo z", answer, sizeof(answer)) == 0);
	return 7;
}

int main(int argc, char **argv)
{
	pid_t child;
	int i, times = argc > 1 ? atoi(argv[1]) : 1;

	child = beside(without);
	check(end_of(child) == 0);
	door = open("w", O_RDWR);
	say("parent: %s", error_name(ask(door, "echo x", answer, sizeof(answer))));
	for (i = 0; i < times; i++) {
		child = fork();
		if (child == 0)
			exit(with());
		if (child == -1) {
			say("fork: %s", error_name(errno));
			continue;
		}
		check(end_of(child) == 7);
	}
	say("parent: %s", error_name(ask(door, "echo x", answer, sizeof(answer))));
	return 0;
}
