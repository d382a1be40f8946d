/*
 * attachments SEED STEPS: three doors of this process are attached to files and detached, and files made, linked, renamed and taken away, as a
 * seed says, also past the library. A table of what each name is to lead to is compared with what stat(2) and a call tell after each step.
 */
#define _GNU_SOURCE 1
#include "test.h"

#include <sys/syscall.h>

enum { NAMES = 5, DOORS = 3, FILES = 2000, NONE = -1 };

static int door[DOORS];
static int file_of[NAMES];          /* that a name leads to, or NONE */
static int door_of[FILES], files;   /* that is attached to a file, or NONE */
static unsigned long state;

static int some(int below)
{
	state = state * 6364136223846793005ul + 1442695040888963407ul;
	return (int)((state >> 33) % (unsigned long)below);
}

static void serve(void *cookie, char *argument, size_t size, door_desc_t *descriptors, uint_t descriptor_count)
{
	static const char *const texts[] = { "0", "1", "2" };

	(void)argument;
	(void)size;
	(void)descriptors;
	(void)descriptor_count;
	give(texts[(intptr_t)cookie]);
}

static const char *name_of(int name)
{
	static const char *const names[] = { "a", "folder/b", "folder/../c", "d", "./e" };

	return names[name];
}

static int door_at_name(int name)
{
	return file_of[name] == NONE ? NONE : door_of[file_of[name]];
}

/* What is told of a name fits the table. */
static int fits(int name)
{
	struct stat found;
	char answer[16];
	int it, error, wanted = door_at_name(name);

	if (file_of[name] == NONE)
		return stat(name_of(name), &found) == -1 && errno == ENOENT && open(name_of(name), O_RDWR) == -1;
	if (stat(name_of(name), &found) == -1 || S_ISDOOR(found.st_mode) != (wanted != NONE))
		return 0;
	it = open(name_of(name), O_RDWR);
	error = ask(it, "", answer, sizeof(answer));
	return close(it) == 0 && (wanted == NONE ? error == EBADF : error == 0 && atoi(answer) == wanted);
}

static int answers(int answer, int wanted)
{
	return wanted == 0 ? answer == 0 : answer == -1 && errno == wanted;
}

static int attach(int name)
{
	int which = some(DOORS), wanted = file_of[name] == NONE ? ENOENT : door_at_name(name) != NONE ? EBUSY : 0;
	int answer = fattach(door[which], name_of(name));

	if (wanted == 0)
		door_of[file_of[name]] = which;
	return answers(answer, wanted);
}

static int detach(int name)
{
	int wanted = file_of[name] == NONE ? ENOENT : door_at_name(name) == NONE ? EINVAL : 0;
	int answer = fdetach(name_of(name));

	if (wanted == 0)
		door_of[file_of[name]] = NONE;
	return answers(answer, wanted);
}

static int create(int name)
{
	int it = open(name_of(name), O_CREAT | O_RDWR | (some(2) ? O_TRUNC : 0), 0600);

	if (file_of[name] == NONE) {
		door_of[files] = NONE;
		file_of[name] = files++;
	}
	return it != -1 && close(it) == 0;
}

static int take_away(int name, int past)
{
	int wanted = file_of[name] == NONE ? ENOENT : door_at_name(name) != NONE && !past ? EBUSY : 0;
	int answer = past ? (int)syscall(SYS_unlink, name_of(name)) : unlink(name_of(name));

	if (wanted == 0)
		file_of[name] = NONE;
	return answers(answer, wanted);
}

static int move(int from, int to, int past)
{
	int busy = door_at_name(from) != NONE || door_at_name(to) != NONE;
	int wanted = file_of[from] == NONE ? ENOENT : busy && !past ? EBUSY : 0;
	int answer = past ? (int)syscall(SYS_rename, name_of(from), name_of(to)) : rename(name_of(from), name_of(to));

	/* of two names of one file both stay */
	if (wanted == 0 && file_of[from] != file_of[to]) {
		file_of[to] = file_of[from];
		file_of[from] = NONE;
	}
	return answers(answer, wanted);
}

static int make_link(int from, int to)
{
	int wanted = file_of[from] == NONE ? ENOENT : file_of[to] != NONE ? EEXIST : 0;
	int answer = link(name_of(from), name_of(to));

	if (wanted == 0)
		file_of[to] = file_of[from];
	return answers(answer, wanted);
}

static int step(int what)
{
	int name = some(NAMES), other = some(NAMES);

	switch (what) {
	case 0:
	case 1:
		return create(name);
	case 2:
	case 3:
		return attach(name);
	case 4:
		return detach(name);
	case 5:
		return take_away(name, some(3) == 0);
	case 6:
		return move(name, other, some(3) == 0);
	default:
		return make_link(name, other);
	}
}

int main(int argc, char **argv)
{
	int i, name, steps = argc > 2 ? atoi(argv[2]) : 200, seed = argc > 1 ? atoi(argv[1]) : 1;

	state = (unsigned long)seed;
	check(mkdir("folder", 0700) == 0);
	for (i = 0; i < DOORS; i++)
		door[i] = door_create(serve, (void *)(intptr_t)i, 0);
	for (i = 0; i < NAMES; i++)
		file_of[i] = NONE;
	for (i = 0; i < steps && files < FILES; i++) {
		int what = some(8), is_right = step(what);

		for (name = 0; name < NAMES && is_right; name++)
			is_right = fits(name);
		if (!is_right) {
			say("seed %d, step %d, a %d: %s", seed, i, what, error_name(errno));
			return 1;
		}
	}
	say("done");
	return 0;
}
