/*
 * closes: descriptors of doors that are closed behind the library's back, all descriptors closed at once, as daemons do it, and numbers
 * that are used again by files. `closes unref` closes one of the door at the path a so, and waits until its server was told; `closes all` closes
 * the library's own so.
 */
#define _GNU_SOURCE 1
#include "test.h"

#include <sys/resource.h>
#include <sys/syscall.h>

static char answer[64];

static int calls_well(int door) { return ask(door, "echo x", answer, sizeof(answer)) == 0 && strcmp(answer, "x") == 0; }

/* The number was a door's, and is now that of a file, which is as any other. */
static void is_a_file(int number)
{
	door_info_t info;
	int copy;
	char byte = 0;
	door_desc_t one;
	door_arg_t call = { (char *)(uintptr_t)"echo y", 6, &one, 1, NULL, 0 };
	int server = open("w", O_RDWR);

	fails(door_info(number, &info), EBADF);
	fails(door_call(number, NULL), EBADF);
	fails(door_revoke(number), EBADF);
	fails(fattach(number, "w"), EINVAL);
	check(write(number, "abc", 3) == 3 && pread(number, &byte, 1, 1) == 1 && byte == 'b');
	copy = dup(number);
	check(copy != -1 && write(copy, "d", 1) == 1 && close(copy) == 0);
	copy = fcntl(number, F_DUPFD, 50);
	check(copy >= 50 && write(copy, "d", 1) == 1 && close(copy) == 0);
	check(dup2(number, 60) == 60 && write(60, "e", 1) == 1 && close(60) == 0);
	memset(&one, 0, sizeof(one));
	one.d_attributes = DOOR_DESCRIPTOR;
	one.d_data.d_desc.d_descriptor = number;
	check(door_call(server, &call) == 0);
	check(close(server) == 0 && close(number) == 0);
	fails(close(number), EBADF);
}

static void behind_its_back(void)
{
	int door = open("w", O_RDWR), other = open("w", O_RDWR), file;

	check(syscall(SYS_close, other) == 0);
	file = open("file", O_CREAT | O_RDWR | O_TRUNC, 0644);
	check(file == other);
	is_a_file(file);
	other = open("w", O_RDWR);
	file = open("file", O_RDWR);
	check(syscall(SYS_dup3, file, other, 0) == other);
	is_a_file(other);
	check(close(file) == 0);
	other = open("w", O_RDWR);
	check(close_range((unsigned)other, (unsigned)other, 0) == 0);
	file = open("file", O_RDWR);
	check(file == other);
	is_a_file(file);
	other = open("w", O_RDWR);
	check(fclose(fdopen(other, "w")) == 0);
	file = open("file", O_RDWR);
	check(file == other);
	is_a_file(file);
	check(calls_well(door) && close(door) == 0);
}

/* As a daemon begins. */
static void close_all(void)
{
	struct rlimit limit;
	int i, door;

	check(calls_well(open("w", O_RDWR)));
	for (i = 3; i < 65536; i++)
		close(i);
	door = open("w", O_RDWR);
	check(door == 3 && calls_well(door));
	check(getrlimit(RLIMIT_NOFILE, &limit) == 0);
	limit.rlim_cur = 64;
	check(setrlimit(RLIMIT_NOFILE, &limit) == 0);
	check(calls_well(door));
	closefrom(3);
	door = open("w", O_RDWR);
	check(door == 3 && calls_well(door));
	check(close_range(3, ~0u, 0) == 0);
	door = open("w", O_RDWR);
	check(door == 3 && calls_well(door));
	/* no descriptor is free any more */
	while (dup(STDIN_FILENO) != -1)
		;
	check(errno == EMFILE);
	fails(open("w", O_RDWR), EMFILE);
	fails(dup(door), EMFILE);
	check(calls_well(door));
	check(close(62) == 0 && close(63) == 0);
	check(open("w", O_RDWR) == 62 && calls_well(62));
	closefrom(3);
}

/* Each of them passes the library by, but the first. */
static int close_by(const char *how, int door)
{
	if (strcmp(how, "close_range") == 0)
		return close_range((unsigned)door, (unsigned)door, 0);
	if (strcmp(how, "fclose") == 0)
		return fclose(fdopen(door, "w"));
	if (strcmp(how, "close") == 0)
		return (int)syscall(SYS_close, door);
	if (strcmp(how, "range") == 0)
		return (int)syscall(SYS_close_range, (unsigned)door, (unsigned)door, 0u);
	return syscall(SYS_dup3, STDIN_FILENO, door, 0) == door && close(door) == 0 ? 0 : -1;
}

static void last_one(const char *how)
{
	int door = open("a", O_RDWR);

	touch("opened");
	wait_for("detached");
	check(close_by(how, door) == 0);
	wait_for("told");
}

int main(int argc, char **argv)
{
	if (argc == 3 && strcmp(argv[1], "unref") == 0) {
		last_one(argv[2]);
		return 0;
	}
	if (argc == 2 && strcmp(argv[1], "all") == 0) {
		/* the library's own, too: there is no way to go on, and it says so */
		check(calls_well(open("w", O_RDWR)) && syscall(SYS_close_range, 3u, ~0u, 0u) == 0);
		return calls_well(open("w", O_RDWR)) ? 0 : 1;
	}
	behind_its_back();
	close_all();
	say("done");
	return 0;
}
