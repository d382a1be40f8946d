/*
 * clones: a client that makes a process past the library, by the bare system call. What the child asks for may fail, but its parent's calls
 * get their own answers, and the parent's descriptors are as they were.
 */
#define _GNU_SOURCE 1
#include "test.h"

#include <sys/syscall.h>

static int door;

static void calls(const char *who, int times, int is_parent)
{
	char request[64], answer[64];
	int i;

	for (i = 0; i < times; i++) {
		snprintf(request, sizeof(request), "echo %s %d", who, i);
		int error = ask(door, request, answer, sizeof(answer));

		if (error != 0 && !is_parent)
			break;
		check(error == 0 && strcmp(answer, request + 5) == 0);
	}
}

int main(void)
{
	door_info_t info;
	long child;
	int status;

	door = open("w", O_RDWR);
	calls("before", 10, 1);
	child = syscall(SYS_clone, (long)SIGCHLD, NULL, NULL, NULL, NULL);
	if (child == 0) {
		calls("child", 200, 0);
		close(door);
		_exit(0);
	}
	calls("parent", 200, 1);
	check(waitpid((pid_t)child, &status, 0) == child);
	calls("after", 10, 1);
	check(door_info(door, &info) == 0 && close(door) == 0);
	say("done");
	return 0;
}
