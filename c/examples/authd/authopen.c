/*
 * authopen: runs a command with what authd opens for it: with a file as its input, with a log as its output.
 *
 * usage: authopen FOLDER NAME [COMMAND ..]     the command is cat where none is named
 */
#include <errno.h>
#include <fcntl.h>
#include <stdio.h>
#include <string.h>
#include <unistd.h>

#include "auth_client.h"

static int fail(const char *what, int status)
{
	(void)fprintf(stderr, "authopen: %s: %s\n", what, strerror(errno));
	return status;
}

int main(int argc, char **argv)
{
	char *cat[] = { "cat", NULL };
	char **command = argc > 3 ? argv + 3 : cat;
	int opened, flags;

	if (argc < 3) {
		(void)fprintf(stderr, "usage: authopen FOLDER NAME [COMMAND ..]\n");
		return 2;
	}
	if (auth_use_folder(argv[1]) == -1)
		return fail(argv[1], 2);
	opened = auth_open(argv[2]);
	if (opened == -1)
		return fail(argv[2], 1);
	flags = fcntl(opened, F_GETFL);
	if (flags == -1 || dup2(opened, (flags & O_ACCMODE) == O_WRONLY ? STDOUT_FILENO : STDIN_FILENO) == -1)
		return fail(argv[2], 1);
	(void)execvp(command[0], command);
	return fail(command[0], 127);
}
