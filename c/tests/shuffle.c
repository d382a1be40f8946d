/*
 * shuffle SEED STEPS: descriptors of two doors, w and x, and of a file are opened, copied, passed and closed as a seed
 * says, also past the library, and in forked children. A table of what each number is to be is compared with what is told
 * of it after each step. In the end all are closed, and `w` is opened and closed until the file `go` is there, so that the
 * history shows that the kernel has nothing left.
 */
#define _GNU_SOURCE 1
#include "test.h"

#include <linux/close_range.h>
#include <sys/syscall.h>

enum { FIRST = 3, NUMBERS = 24, FORKS = 3 };

enum kind { CLOSED, PLAIN, DOOR_W, DOOR_X };

static struct {
	enum kind kind;
	int closes; /* FD_CLOEXEC */
} is[NUMBERS];

static unsigned long state;
static unsigned long long id_of_w, id_of_x;

static int some(int below)
{
	state = state * 6364136223846793005ul + 1442695040888963407ul;
	return (int)((state >> 33) % (unsigned long)below);
}

static int lowest_free(int from)
{
	while (from < NUMBERS && is[from].kind != CLOSED)
		from++;
	return from;
}

static void put(int number, enum kind kind, int closes)
{
	if (number < FIRST || number >= NUMBERS)
		return;
	is[number].kind = kind;
	is[number].closes = closes;
}

/* What is told of a number fits the table. */
static int fits(int number)
{
	door_info_t info;
	struct stat found;
	int flags = fcntl(number, F_GETFD), is_door = door_info(number, &info) == 0;

	switch (is[number].kind) {
	case CLOSED:
		return flags == -1 && !is_door && fstat(number, &found) == -1;
	case PLAIN:
		return flags == is[number].closes && !is_door && fstat(number, &found) == 0 && S_ISREG(found.st_mode);
	default:
		return flags == is[number].closes && is_door && fstat(number, &found) == 0 && S_ISDOOR(found.st_mode)
			&& info.di_uniquifier == (is[number].kind == DOOR_W ? id_of_w : id_of_x);
	}
}

static int calls(int number)
{
	char answer[32];
	int error = ask(number, "echo it", answer, sizeof(answer));

	return is[number].kind >= DOOR_W ? error == 0 && strcmp(answer, "it") == 0 : error == EBADF;
}

/* Passed with a call and released: it is closed then, unless the call is refused. */
static int passes(int number, int by)
{
	door_desc_t one;
	door_arg_t call = { (char *)(uintptr_t)"echo", 4, &one, 1, NULL, 0 };
	int error;

	memset(&one, 0, sizeof(one));
	one.d_attributes = DOOR_DESCRIPTOR | DOOR_RELEASE;
	one.d_data.d_desc.d_descriptor = number;
	error = door_call(by, &call) == -1 ? errno : 0;
	if (is[by].kind < DOOR_W)
		return error == EBADF;
	if (is[number].kind == CLOSED)
		return error == EINVAL;
	put(number, CLOSED, 0);
	return error == 0;
}

static int opens(void)
{
	static const char *const paths[] = { "w", "x", "file" };
	static const enum kind kinds[] = { DOOR_W, DOOR_X, PLAIN };
	int which = some(3), closes = some(2), number = lowest_free(FIRST);

	if (number >= NUMBERS - 2)
		return 1;
	put(number, kinds[which], closes ? FD_CLOEXEC : 0);
	return open(paths[which], O_RDWR | (closes ? O_CLOEXEC : 0)) == number;
}

static int copies(int from, int to, int way)
{
	int least = some(NUMBERS - FIRST) + FIRST, found, closes = some(2);

	if (is[from].kind == CLOSED)
		return (way == 0 ? dup(from) : way == 1 ? dup2(from, to) : fcntl(from, F_DUPFD, least)) == -1 && errno == EBADF;
	if (way == 1 || (way == 2 && from != to)) {
		found = way == 1 ? dup2(from, to) : dup3(from, to, closes ? O_CLOEXEC : 0);
		if (from != to)
			put(to, is[from].kind, way == 2 && closes ? FD_CLOEXEC : 0);
		return found == to;
	}
	if (lowest_free(way == 0 ? FIRST : least) >= NUMBERS - 2)
		return 1;
	to = lowest_free(way == 0 ? FIRST : least);
	put(to, is[from].kind, way == 3 ? FD_CLOEXEC : 0);
	return (way == 0 ? dup(from) : fcntl(from, way == 3 ? F_DUPFD_CLOEXEC : F_DUPFD, least)) == to;
}

static int closes(int number, int way)
{
	int other = number + some(3), i, answer, wanted = is[number].kind == CLOSED ? -1 : 0;

	if (other >= NUMBERS)
		other = NUMBERS - 1;
	if (way == 0) {
		answer = close(number);
	} else if (way == 1) {
		answer = (int)syscall(SYS_close, number);
	} else if (way == 2) {
		answer = close_range((unsigned)number, (unsigned)other, 0);
	} else {
		answer = (int)syscall(SYS_close_range, (unsigned)number, (unsigned)other, 0u);
	}
	for (i = number; i <= (way < 2 ? number : other); i++)
		put(i, CLOSED, 0);
	return answer == (way < 2 ? wanted : 0);
}

static int marks(int number)
{
	int flag = some(2) ? FD_CLOEXEC : 0, i, answer;

	if (some(4) == 0) {
		answer = close_range((unsigned)number, NUMBERS - 1, CLOSE_RANGE_CLOEXEC);
		for (i = number; i < NUMBERS; i++)
			is[i].closes = FD_CLOEXEC;
		return answer == 0;
	}
	answer = fcntl(number, F_SETFD, flag);
	if (is[number].kind == CLOSED)
		return answer == -1 && errno == EBADF;
	is[number].closes = flag;
	return answer == 0;
}

/* A file over the number, past the library. */
static int covers(int number)
{
	int file = open("file", O_RDWR), answer = (int)syscall(SYS_dup3, file, number, 0), is_right;

	if (file == number)
		is_right = answer == -1;
	else
		is_right = answer == number && close(file) == 0;
	put(number, PLAIN, 0);
	return is_right;
}

static int all_fit(void)
{
	int number;

	for (number = FIRST; number < NUMBERS; number++)
		if (!fits(number))
			return 0;
	return 1;
}

static int step(int what);

/* What a child does with its own is nothing to its parent. */
static int forks(void)
{
	static int forked;
	int i, is_right = 1;
	pid_t child;

	if (++forked > FORKS)
		return 1;
	child = fork();
	if (child != 0)
		return child != -1 && end_of(child) == 0;
	forked = FORKS;
	is_right = all_fit();
	for (i = 0; i < 30 && is_right; i++)
		is_right = step(some(12)) && all_fit();
	_exit(is_right ? 0 : 1);
}

static int step(int what)
{
	int number = FIRST + some(NUMBERS - 2 - FIRST), other = FIRST + some(NUMBERS - 2 - FIRST);

	switch (what) {
	case 0:
	case 1:
	case 2:
		return opens();
	case 3:
	case 4:
	case 5:
		return copies(number, other, some(4));
	case 6:
	case 7:
		return closes(number, some(4));
	case 8:
		return marks(number);
	case 9:
		return passes(number, other);
	case 10:
		return some(3) == 0 ? covers(number) : some(4) == 0 ? forks() : 1;
	default:
		return calls(number);
	}
}

static unsigned long long id_of(const char *path)
{
	int door = open(path, O_RDWR);
	door_info_t info;

	check(door_info(door, &info) == 0 && close(door) == 0);
	return info.di_uniquifier;
}

int main(int argc, char **argv)
{
	int i, steps = argc > 2 ? atoi(argv[2]) : 1000, seed = argc > 1 ? atoi(argv[1]) : 1;
	char answer[32];

	closefrom(FIRST);
	state = (unsigned long)seed;
	touch("file");
	id_of_w = id_of("w");
	id_of_x = id_of("x");
	for (i = 0; i < steps; i++) {
		int what = some(12);

		if (step(what) && all_fit())
			continue;
		say("seed %d, step %d, a %d: %s", seed, i, what, error_name(errno));
		return 1;
	}
	closefrom(FIRST);
	check(ask(open("w", O_RDWR), "echo last", answer, sizeof(answer)) == 0 && close(FIRST) == 0);
	for (i = 0; i < 4000 && !is_there("go"); i++) {
		check(close(open("w", O_RDWR)) == 0);
		usleep(5000);
	}
	say("done");
	return 0;
}
