/* shells: a client of w that runs other programs, by each call that there is for it. None of them has its doors. */
#define _GNU_SOURCE 1
#include "test.h"

#include <spawn.h>

extern char **environ;

static int door;
static char answer[64];

static void calls_well(void)
{
	check(ask(door, "echo x", answer, sizeof(answer)) == 0 && strcmp(answer, "x") == 0);
}

/* a shell that looks whether it has the descriptor */
static const char *look(void)
{
	static char text[64];

	snprintf(text, sizeof(text), "test ! -e /proc/self/fd/%d", door);
	return text;
}

int main(void)
{
	char *words[] = { (char *)(uintptr_t)"sh", (char *)(uintptr_t)"-c", NULL, NULL };
	pid_t child;
	FILE *file;
	char line[64] = "";

	door = fcntl(open("w", O_RDWR), F_DUPFD, 70);
	calls_well();
	check(system(look()) == 0);
	calls_well();
	file = popen("echo from popen", "r");
	check(file != NULL && fgets(line, sizeof(line), file) != NULL && strcmp(line, "from popen\n") == 0 && pclose(file) == 0);
	calls_well();
	words[2] = (char *)(uintptr_t)look();
	check(posix_spawnp(&child, "sh", NULL, NULL, words, environ) == 0 && end_of(child) == 0);
	calls_well();
	child = vfork();
	if (child == 0) {
		execvp("sh", words);
		_exit(9);
	}
	check(end_of(child) == 0);
	calls_well();
	/* a child of vfork that closes what is its parent's, before it becomes another program */
	child = vfork();
	if (child == 0) {
		close(door);
		execvp("sh", words);
		_exit(9);
	}
	check(end_of(child) == 0);
	calls_well();
	say("done");
	return 0;
}
