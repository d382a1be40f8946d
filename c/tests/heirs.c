/*
 * heirs WHAT PATH: programs that fork, and what becomes of their doors.
 *
 * client, server: no child is in store for them; a client of w, and one with a door of its own
 * among:          a client of w that forks while its other threads call; three children are in store
 * pty:            a client of w that forks by forkpty(3), which no library stands before
 * before, double: a daemon by daemon(3), by a double fork, which then makes the door at PATH
 * after:          makes the door at PATH, becomes a daemon, and makes it anew, since the first was its parent's
 */
#define _GNU_SOURCE 1
#include "test.h"

#include <dlfcn.h>
#include <spawn.h>

extern char **environ;

static const char *text;
static char answer[64];

static void serve(void *cookie, char *argument, size_t size, door_desc_t *descriptors, uint_t descriptor_count)
{
	(void)cookie;
	(void)argument;
	(void)size;
	(void)descriptors;
	(void)descriptor_count;
	give(text);
}

/* Programs can be run all the same, by whatever way there is. */
static void run_programs(void)
{
	char *words[] = { (char *)(uintptr_t)"sh", (char *)(uintptr_t)"-c", (char *)(uintptr_t)"exit 4", NULL };
	char line[8] = "";
	pid_t child;
	FILE *file;

	check(WEXITSTATUS(system("exit 4")) == 4);
	file = popen("echo x", "r");
	check(file != NULL && fgets(line, sizeof(line), file) != NULL && line[0] == 'x' && pclose(file) == 0);
	check(posix_spawnp(&child, "sh", NULL, NULL, words, environ) == 0 && end_of(child) == 4);
	child = vfork();
	if (child == 0) {
		execvp("sh", words);
		_exit(9);
	}
	check(end_of(child) == 4);
}

/* Descriptors that are dead: their numbers are taken until they are closed, and so they are in a child of the child. */
static int with_dead_doors(int door)
{
	pid_t child;
	int own;

	fails(ask(door, "echo x", answer, sizeof(answer)) == 0 ? 0 : -1, EBADF);
	child = fork();
	if (child == 0)
		_exit(ask(door, "echo x", answer, sizeof(answer)) == EBADF ? 5 : 0);
	check(end_of(child) == 5);
	own = open("w", O_RDWR);
	check(own != door && ask(own, "echo x", answer, sizeof(answer)) == 0);
	check(close(door) == 0);
	fails(close(door), EBADF);
	check(ask(own, "echo x", answer, sizeof(answer)) == 0 && close(own) == 0);
	return 7;
}

static void be_client(void)
{
	int door = open("w", O_RDWR);
	pid_t child;

	check(ask(door, "echo x", answer, sizeof(answer)) == 0);
	run_programs();
	/* fork and exec, as programs do that do not know of posix_spawn */
	child = fork();
	if (child == 0) {
		execlp("sh", "sh", "-c", "exit 6", (char *)NULL);
		_exit(9);
	}
	check(end_of(child) == 6);
	fails(daemon(1, 1), EAGAIN);
	child = fork();
	if (child == 0)
		_exit(with_dead_doors(door));
	check(end_of(child) == 7);
	check(ask(door, "echo x", answer, sizeof(answer)) == 0);
}

static void be_server(void)
{
	int door;

	text = "own";
	door = door_create(serve, NULL, 0);
	fails(fork(), EAGAIN);
	fails(daemon(1, 1), EAGAIN);
	run_programs();
	check(ask(door, "x", answer, sizeof(answer)) == 0 && strcmp(answer, "own") == 0);
}

static int shared;
static _Atomic int is_over, served, others;

static void *call_on(void *unused)
{
	char came[16];

	while (!is_over) {
		int error = ask(shared, "echo x", came, sizeof(came));

		if (error == 0 && strcmp(came, "x") == 0)
			served++;
		else if (error != EINTR)
			others++;
	}
	return unused;
}

/* The first three children have the door, the next two a dead one, and the others become another program. */
static void fork_among(void)
{
	pthread_t caller[4];
	int i;

	shared = open("w", O_RDWR);
	for (i = 0; i < 4; i++)
		caller[i] = thread_of(call_on, NULL);
	for (i = 0; i < 30; i++) {
		int before = served;
		pid_t child = fork();

		if (child == 0 && i < 5)
			_exit(ask(shared, "echo x", answer, sizeof(answer)) == (i < 3 ? 0 : EBADF) ? 4 : 9);
		if (child == 0) {
			execlp("sh", "sh", "-c", "exit 4", (char *)NULL);
			_exit(9);
		}
		check(child > 0 && end_of(child) == 4);
		while (served == before)
			usleep(1000);
	}
	is_over = 1;
	for (i = 0; i < 4; i++)
		pthread_join(caller[i], NULL);
	check(others == 0);
}

/* The function is looked up, since it is in a library of its own on some systems. Without one there is nothing to test. */
static void fork_at_terminal(void)
{
	pid_t (*function)(int *, char *, const void *, const void *) = NULL;
	void *found = dlsym(RTLD_DEFAULT, "forkpty");
	int i, terminal, door = open("w", O_RDWR);

	memcpy(&function, &found, sizeof(found));
	for (i = 0; i < 2 && function != NULL; i++) {
		pid_t child = function(&terminal, NULL, NULL, NULL);

		if (child == 0)
			_exit(ask(door, "echo x", answer, sizeof(answer)) == (i == 0 ? 0 : EBADF) ? 4 : 9);
		check(child > 0 && end_of(child) == 4);
	}
	check(ask(door, "echo x", answer, sizeof(answer)) == 0);
}

static void fork_twice(void)
{
	for (int i = 0; i < 2; i++) {
		pid_t child = fork();

		if (child == -1)
			give_up("fork");
		if (child > 0)
			_exit(0);
		if (i == 0)
			check(setsid() == getpid());
	}
}

static void become_daemon(const char *what, const char *path)
{
	int first = -1;

	if (strcmp(what, "after") == 0)
		first = serve_at(path, serve, NULL, 0);
	if (strcmp(what, "double") == 0)
		fork_twice();
	else if (daemon(1, 1) == -1)
		give_up("daemon");
	if (first != -1) {
		/* doord sees the end of the parent when it sees it */
		while (ask(first, "x", answer, sizeof(answer)) == 0)
			usleep(5000);
		say("the door of the parent: %s", error_name(ask(first, "x", answer, sizeof(answer))));
		check(fdetach(path) == 0 && close(first) == 0);
	}
	text = what;
	serve_at(path, serve, NULL, 0);
	wait_for("end");
}

int main(int argc, char **argv)
{
	if (argc == 2 && strcmp(argv[1], "client") == 0)
		be_client();
	else if (argc == 2 && strcmp(argv[1], "among") == 0)
		fork_among();
	else if (argc == 2 && strcmp(argv[1], "pty") == 0)
		fork_at_terminal();
	else if (argc == 2)
		be_server();
	else if (argc == 3)
		become_daemon(argv[1], argv[2]);
	if (argc == 2)
		say("%s: done", argv[1]);
	return 0;
}
