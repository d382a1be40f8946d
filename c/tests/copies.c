/*
 * copies: copies of doors' descriptors by dup(2), dup2(2), dup3(2) and fcntl(2), and what fcntl(2) tells of them. Two doors are at `w`, which
 * answers, and `x`. `copies fork`: a descriptor is closed in the child of a fork, and in its parent.
 */
#define _GNU_SOURCE 1
#include "test.h"

#include <dirent.h>
#include <linux/close_range.h>
#include <sys/resource.h>

static char answer[64];

/* Whether the descriptor leads to the door at the path that its server calls so. */
static int is_door(int door, const char *number)
{
	char text[64];

	snprintf(text, sizeof(text), "echo %s", number);
	return ask(door, text, answer, sizeof(answer)) == 0 && strcmp(answer, number) == 0;
}

static int same(int one, int other)
{
	door_info_t a, b;

	return door_info(one, &a) == 0 && door_info(other, &b) == 0 && a.di_uniquifier == b.di_uniquifier;
}

static int low(void)
{
	int file = open("/dev/null", O_RDWR);

	check(file != -1 && close(file) == 0);
	return file;
}

static int has_closed(int door) { return fcntl(door, F_GETFD) == -1 && errno == EBADF; }

static void flags(void)
{
	int door = open("w", O_RDWR), closes = open("w", O_RDONLY | O_CLOEXEC), writes = open("w", O_WRONLY), copy, high;
	char command[64];

	check(fcntl(door, F_GETFD) == 0 && fcntl(closes, F_GETFD) == FD_CLOEXEC);
	check(fcntl(door, F_GETFL) == O_RDWR && fcntl(closes, F_GETFL) == O_RDONLY && fcntl(writes, F_GETFL) == O_WRONLY);
	copy = dup(closes);
	check(fcntl(copy, F_GETFD) == 0 && fcntl(copy, F_GETFL) == O_RDONLY && close(copy) == 0);
	high = fcntl(closes, F_DUPFD, 100);
	check(high == 100 && fcntl(high, F_GETFD) == 0 && is_door(high, "high"));
	check(fcntl(door, F_DUPFD_CLOEXEC, 100) == 101 && fcntl(101, F_GETFD) == FD_CLOEXEC && is_door(101, "higher"));
	check(dup3(door, 100, O_CLOEXEC) == 100 && fcntl(100, F_GETFD) == FD_CLOEXEC && fcntl(100, F_GETFL) == O_RDWR);
	check(dup2(door, 100) == 100 && fcntl(100, F_GETFD) == 0 && close(100) == 0 && close(101) == 0);
	check(fcntl(door, F_SETFD, FD_CLOEXEC) == 0 && fcntl(door, F_GETFD) == FD_CLOEXEC);
	check(fcntl(door, F_SETFD, 0) == 0 && fcntl(door, F_GETFD) == 0 && is_door(door, "it"));
	/* no door passes an exec all the same */
	snprintf(command, sizeof(command), "! [ -e /proc/self/fd/%d ]", door);
	check(system(command) == 0);
	check(fcntl(door, F_SETFL, O_NONBLOCK) == 0 && fcntl(door, F_GETFL) == (O_RDWR | O_NONBLOCK) && is_door(door, "it"));
	copy = dup(door);
	check(fcntl(copy, F_GETFL) == (O_RDWR | O_NONBLOCK) && close(copy) == 0);
	check(fcntl(door, F_SETFL, 0) == 0 && fcntl(door, F_GETFL) == O_RDWR);
	copy = open("w", O_RDWR | O_NONBLOCK | O_APPEND | O_CREAT, 0600);
	check(fcntl(copy, F_GETFL) == (O_RDWR | O_NONBLOCK | O_APPEND) && is_door(copy, "it") && close(copy) == 0);
	fails(fcntl(door, F_DUPFD, -1), EINVAL);
	fails(fcntl(door, F_DUPFD, 1 << 24), EINVAL);
	fails(fcntl(999, F_GETFD), EBADF);
	check(close(door) == 0 && close(closes) == 0 && close(writes) == 0);
	fails(fcntl(door, F_GETFL), EBADF);
}

/* Onto numbers that are free, or not, in each order to those that a pipe takes. */
static void onto(int w, int x)
{
	int i, file, first = low();

	for (i = 0; i < 4; i++) {
		check(dup2(w, first + i) == first + i && same(first + i, w) && close(first + i) == 0);
		check(dup3(w, first + i, 0) == first + i && same(first + i, w));
		check(dup2(x, first + i) == first + i && same(first + i, x) && close(first + i) == 0);
	}
	check(dup2(w, w) == w && dup2(x, x) == x && same(w, w) && !same(w, x));
	fails(dup3(w, w, 0), EINVAL);
	fails(dup3(w, 50, O_APPEND), EINVAL);
	/* a file over a door, and a door over a file */
	file = open("file", O_CREAT | O_RDWR | O_TRUNC, 0644);
	check(dup2(w, 50) == 50 && dup2(file, 50) == 50 && write(50, "abc", 3) == 3);
	fails(door_call(50, NULL), EBADF);
	check(dup2(w, 50) == 50 && is_door(50, "again") && lseek(file, 0, SEEK_CUR) == 3 && close(50) == 0);
	check(dup2(x, file) == file && same(file, x) && dup2(w, file) == file && same(file, w) && is_door(file, "over"));
	check(close(file) == 0 && low() == first);
}

/* Where it fails, what was there is there still. */
static void refused(int w, int x)
{
	struct rlimit limit, few;
	int used = low(), file;

	fails(dup2(-1, w), EBADF);
	fails(dup2(999, w), EBADF);
	fails(dup2(w, -1), EBADF);
	fails(dup2(w, 1 << 24), EBADF);
	fails(dup3(w, -5, O_CLOEXEC), EBADF);
	check(is_door(w, "here"));
	check(getrlimit(RLIMIT_NOFILE, &limit) == 0);
	few = limit;
	few.rlim_cur = (rlim_t)used;
	check(setrlimit(RLIMIT_NOFILE, &few) == 0);
	fails(dup(w), EMFILE);
	fails(dup2(w, used), EBADF);
	fails(dup2(w, x), EMFILE);
	fails(fcntl(w, F_DUPFD, 3), EMFILE);
	check(is_door(w, "there") && is_door(x, "too") && !same(w, x));
	/* a descriptor above the limit is there, and nothing can be put over it */
	few.rlim_cur = (rlim_t)x;
	check(setrlimit(RLIMIT_NOFILE, &few) == 0);
	fails(dup2(STDIN_FILENO, x), EBADF);
	fails(dup2(w, x), EBADF);
	check(is_door(x, "above"));
	check(setrlimit(RLIMIT_NOFILE, &limit) == 0);
	file = low();
	check(file == used && dup2(w, x) == x && same(w, x));
}

/* No door has a number of 65,536 or more; a file may have. */
static void high_numbers(int w)
{
	enum { HIGH = 65536 };
	struct rlimit limit, many;
	int file = open("file", O_RDWR), door = open("x", O_RDWR);

	check(getrlimit(RLIMIT_NOFILE, &limit) == 0);
	many = limit;
	many.rlim_cur = HIGH + 10;
	if (many.rlim_max < many.rlim_cur)
		many.rlim_max = many.rlim_cur;
	if (setrlimit(RLIMIT_NOFILE, &many) == -1) {
		check(close(file) == 0 && close(door) == 0);
		return;
	}
	fails(dup2(w, HIGH), EBADF);
	fails(fcntl(w, F_DUPFD, HIGH), EMFILE);
	check(has_closed(HIGH) && dup2(w, HIGH - 1) == HIGH - 1 && same(w, HIGH - 1) && !same(door, HIGH - 1));
	check(dup2(file, HIGH) == HIGH && write(HIGH, "x", 1) == 1 && close(HIGH) == 0 && close(file) == 0 && close(door) == 0);
	fails(fcntl(w, F_DUPFD, HIGH - 1), EMFILE);
	check(close_range(HIGH - 100, ~0u, 0) == 0 && has_closed(HIGH - 1) && is_door(w, "below"));
	check(setrlimit(RLIMIT_NOFILE, &limit) == 0);
}

/* What the library keeps for itself looks as if it were not open, and stays. */
static void kept(int w)
{
	DIR *folder = opendir("/proc/self/fd");
	struct dirent *entry;
	int count = 0;

	while ((entry = readdir(folder)) != NULL) {
		int it = atoi(entry->d_name);

		if (*entry->d_name == '.' || !has_closed(it))
			continue;
		count++;
		fails(close(it), EBADF);
		fails(dup(it), EBADF);
		fails(dup2(w, it), EBADF);
		fails(dup2(it, 50), EBADF);
		fails(dup2(STDIN_FILENO, it), EBADF);
		fails(fcntl(it, F_SETFD, 0), EBADF);
		fails(fcntl(it, F_DUPFD, 0), EBADF);
	}
	closedir(folder);
	check(count == 2 && is_door(w, "still"));
}

static void ranges(int w)
{
	int other = open("x", O_RDWR), file = open("file", O_RDWR);

	check(fcntl(w, F_GETFD) == 0 && fcntl(other, F_GETFD) == 0);
	check(close_range((unsigned)other, ~0u, CLOSE_RANGE_CLOEXEC) == 0 && is_door(w, "in range") && fcntl(file, F_GETFD) == FD_CLOEXEC);
	check(fcntl(w, F_GETFD) == 0 && fcntl(other, F_GETFD) == FD_CLOEXEC && fcntl(dup(other), F_GETFD) == 0);
	check(close_range((unsigned)other, (unsigned)file, CLOSE_RANGE_UNSHARE) == 0 && has_closed(other) && has_closed(file));
	fails(door_call(other, NULL), EBADF);
	fails(close_range(5, 4, 0), EINVAL);
	fails(close_range(3, 4, 1 << 10), EINVAL);
	check(is_door(w, "as before"));
	check(close_range(3, ~0u, CLOSE_RANGE_UNSHARE) == 0 && has_closed(w));
	w = open("w", O_RDWR);
	check(w == 3 && is_door(w, "after all"));
	closefrom(-1);
	check(has_closed(w) && has_closed(STDOUT_FILENO));
}

enum { ABOVE = 90, BELOW = 20 };

static int child_closes(void)
{
	int w = 3, x = 4;
	struct rlimit limit;

	/* a descriptor above the limit, which its parent had lowered, is the child's own as well */
	check(is_door(ABOVE, "above") && same(ABOVE, w) && fcntl(ABOVE, F_GETFL) == (O_RDWR | O_NONBLOCK));
	check(getrlimit(RLIMIT_NOFILE, &limit) == 0 && limit.rlim_cur == BELOW);
	check(close(ABOVE) == 0 && has_closed(ABOVE));

	check(is_door(w, "in the child") && same(w, 5) && !same(w, x) && fcntl(w, F_GETFD) == FD_CLOEXEC && fcntl(x, F_GETFD) == 0);
	check(close(w) == 0 && has_closed(w) && is_door(5, "the copy"));
	touch("closed");
	wait_for("parent");
	check(is_door(x, "its own") && close(x) == 0 && has_closed(x));
	return 0;
}

static void forked(void)
{
	int w, x;
	pid_t child;
	struct rlimit limit;

	closefrom(3);
	w = open("w", O_RDWR | O_CLOEXEC);
	x = open("x", O_RDWR);
	check(w == 3 && x == 4 && dup(w) == 5 && dup2(w, ABOVE) == ABOVE && fcntl(ABOVE, F_SETFL, O_NONBLOCK) == 0);
	check(getrlimit(RLIMIT_NOFILE, &limit) == 0);
	limit.rlim_cur = BELOW;
	check(setrlimit(RLIMIT_NOFILE, &limit) == 0);
	child = beside(child_closes);
	wait_for("closed");
	check(is_door(w, "in the parent") && is_door(x, "as well") && is_door(5, "and this") && is_door(ABOVE, "and that"));
	check(close(x) == 0 && has_closed(x));
	touch("parent");
	check(end_of(child) == 0 && is_door(w, "at the end"));
}

int main(int argc, char **argv)
{
	int w, x;

	if (argc == 2 && strcmp(argv[1], "fork") == 0) {
		forked();
		say("done");
		return 0;
	}
	w = open("w", O_RDWR);
	x = open("x", O_RDWR);
	flags();
	onto(w, x);
	refused(w, x);
	high_numbers(w);
	kept(w);
	say("done");
	ranges(w);
	return 0;
}
