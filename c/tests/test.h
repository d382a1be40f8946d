/*
 * test.h: what the test programs share. A program prints a line for each check that failed, and what else its case in tests/c wants to
 * see; a line is one write, so that those of several processes do not mix.
 */
#ifndef TEST_H
#define TEST_H

#include <door.h>
#include <errno.h>
#include <fcntl.h>
#include <pthread.h>
#include <signal.h>
#include <stdarg.h>
#include <stdio.h>
#include <stdlib.h>
#include <string.h>
#include <stropts.h>
#include <sys/stat.h>
#include <sys/wait.h>
#include <unistd.h>

/* The name of an error; 0 is `ok`. */
static inline const char *error_name(int error)
{
	static const struct {
		int error;
		const char *name;
	} names[] = {
		{ 0, "ok" }, { EINTR, "EINTR" }, { EBADF, "EBADF" }, { EAGAIN, "EAGAIN" }, { EINVAL, "EINVAL" }, { ENOENT, "ENOENT" },
		{ EBUSY, "EBUSY" }, { EPERM, "EPERM" }, { EACCES, "EACCES" }, { E2BIG, "E2BIG" }, { ENOBUFS, "ENOBUFS" },
		{ ENFILE, "ENFILE" }, { EMFILE, "EMFILE" }, { ENOTSUP, "ENOTSUP" }, { EEXIST, "EEXIST" }, { EFAULT, "EFAULT" },
		{ EOVERFLOW, "EOVERFLOW" }, { ENOMEM, "ENOMEM" }, { ELOOP, "ELOOP" }, { ENOTDIR, "ENOTDIR" }, { EISDIR, "EISDIR" },
		{ ENAMETOOLONG, "ENAMETOOLONG" }, { ECHILD, "ECHILD" }, { EPIPE, "EPIPE" }, { ENOTEMPTY, "ENOTEMPTY" },
	};
	size_t i;

	for (i = 0; i < sizeof(names) / sizeof(names[0]); i++) {
		if (names[i].error == error)
			return names[i].name;
	}
	return strerror(error);
}

__attribute__((format(printf, 1, 2))) static inline void say(const char *form, ...)
{
	char line[8192];
	int length;
	va_list rest;

	va_start(rest, form);
	length = vsnprintf(line, sizeof(line) - 1, form, rest);
	va_end(rest);
	if (length < 0)
		return;
	if ((size_t)length > sizeof(line) - 2)
		length = (int)sizeof(line) - 2;
	line[length++] = '\n';
	if (write(STDOUT_FILENO, line, (size_t)length) != length)
		_exit(9);
}

static inline void check_that(int holds, const char *file, int line, const char *text)
{
	int error = errno;

	if (!holds)
		say("%s:%d: not so: %s (errno %s)", file, line, text, error_name(error));
	errno = error;
}

#define check(condition) check_that((condition) ? 1 : 0, __FILE__, __LINE__, #condition)

/* Checks that a call answers -1 with this error. */
static inline void check_fails(long answer, int error, const char *file, int line, const char *text)
{
	int found = answer == -1 ? errno : 0;

	if (answer != -1 || found != error)
		say("%s:%d: %s: wanted %s, came %ld %s", file, line, text, error_name(error), answer, error_name(found));
}

/* errno is set first, so that one that is left from before does not count */
#define fails(call, error) (errno = 0, check_fails((call), (error), __FILE__, __LINE__, #call))

static inline void give_up(const char *what)
{
	say("%s: %s", what, error_name(errno));
	exit(3);
}

/* Whether the file is there. */
static inline int is_there(const char *path) { return faccessat(AT_FDCWD, path, F_OK, 0) == 0; }

/* Waits until the file is there: what a script, or another process, makes by `touch`. */
static inline void wait_for(const char *path)
{
	int i;

	for (i = 0; i < 8000 && !is_there(path); i++)
		usleep(5000);
	if (i == 8000)
		give_up(path);
}

static inline void touch(const char *path)
{
	int file = open(path, O_CREAT | O_WRONLY | O_CLOEXEC, 0644);

	if (file == -1)
		give_up(path);
	close(file);
}

/* Makes a door and attaches it to a file, which is made where it is not there. */
static inline int serve_at(const char *path, door_server_procedure_t *procedure, void *cookie, uint_t attributes)
{
	int door = door_create(procedure, cookie, attributes);

	if (door == -1)
		give_up("door_create");
	touch(path);
	if (fattach(door, path) == -1)
		give_up("fattach");
	return door;
}

/* Opens a door, once it is attached to the file. */
static inline int door_at(const char *path)
{
	int i;

	for (i = 0; i < 8000; i++) {
		int door = open(path, O_RDWR);
		door_info_t info;

		if (door != -1 && door_info(door, &info) == 0)
			return door;
		if (door != -1)
			close(door);
		usleep(5000);
	}
	give_up(path);
	return -1;
}

/* Calls a door with a text, and leaves the answer, ended by a zero byte. The error, or 0. */
static inline int ask(int door, const char *text, char *answer, size_t room)
{
	door_arg_t call;

	memset(&call, 0, sizeof(call));
	call.data_ptr = (char *)(uintptr_t)text;
	call.data_size = strlen(text);
	call.rbuf = answer;
	call.rsize = room - 1;
	answer[0] = '\0';
	if (door_call(door, &call) == -1)
		return errno;
	if (call.data_ptr != answer || call.data_size > room - 1)
		return EOVERFLOW;
	answer[call.data_size] = '\0';
	return 0;
}

/* Returns a text to the client. */
static inline void give(const char *text)
{
	door_return((char *)(uintptr_t)text, strlen(text), NULL, 0);
	say("door_return: %s", error_name(errno));
}

/* What a server's main does, once its doors are there. */
static inline int pause_for_good(void)
{
	for (;;)
		pause();
	return 0;
}

/* A program beside this one, in a child process, which ends with what the function answers. */
static inline pid_t beside(int (*program)(void))
{
	pid_t child = fork();

	if (child == -1)
		give_up("fork");
	if (child == 0)
		exit(program());
	return child;
}

/* The status of a child that has ended, or the negative number of the signal that ended it. */
static inline int end_of(pid_t child)
{
	int status;

	while (waitpid(child, &status, 0) == -1) {
		if (errno != EINTR)
			give_up("waitpid");
	}
	return WIFEXITED(status) ? WEXITSTATUS(status) : -WTERMSIG(status);
}

static inline pthread_t thread_of(void *(*body)(void *), void *argument)
{
	pthread_t thread;
	int error = pthread_create(&thread, NULL, body, argument);

	if (error != 0) {
		errno = error;
		give_up("pthread_create");
	}
	return thread;
}

/* How many descriptors this process has, without the one that looks. */
static inline int descriptors_open(void)
{
	int i, count = 0;

	for (i = 0; i < 65536; i++) {
		if (fcntl(i, F_GETFD) != -1)
			count++;
	}
	return count;
}

#endif
