/*
 * places: files to which doors are attached, of all kinds, and by those who may and may not. `places chroot`, as root, attaches and opens under
 * another root, and `places late` is under another root before its first call.
 */
#define _GNU_SOURCE 1
#include "test.h"

#include <limits.h>
#include <sys/socket.h>
#include <sys/un.h>

static int door;

static void serve(void *cookie, char *argument, size_t size, door_desc_t *descriptors, uint_t descriptor_count)
{
	(void)argument;
	(void)size;
	(void)descriptors;
	(void)descriptor_count;
	give(cookie == NULL ? "door" : "other");
}

static int answers(const char *path, const char *wanted)
{
	char answer[64];
	int it = open(path, O_RDWR | O_NONBLOCK), error = ask(it, "", answer, sizeof(answer));

	check(it != -1 && close(it) == 0);
	return error == 0 && strcmp(answer, wanted) == 0;
}

static int there_and_back(const char *path) { return fattach(door, path) == 0 && answers(path, "door") && fdetach(path) == 0; }

static void kinds(void)
{
	struct sockaddr_un address = { AF_UNIX, "socket" };
	int it = socket(AF_UNIX, SOCK_STREAM, 0);

	check(mkdir("folder", 0700) == 0 && mkfifo("fifo", 0600) == 0);
	check(bind(it, (struct sockaddr *)&address, sizeof(address)) == 0 && close(it) == 0);
	check(there_and_back("fifo") && there_and_back("socket"));
	fails(open("socket", O_RDWR), ENXIO);
	fails(fattach(door, "folder"), EINVAL);
	fails(fattach(door, "."), EINVAL);
	fails(fdetach("folder"), EINVAL);
	check(symlink("loop", "loop") == 0);
	fails(fattach(door, "loop"), ELOOP);
	fails(fdetach("loop"), ELOOP);
	fails(fattach(door, "nowhere/x"), ENOENT);
	touch("plain");
	fails(fattach(door, "plain/x"), ENOTDIR);
	fails(fattach(door, (const char *)8), EFAULT);
	fails(fdetach((const char *)8), EFAULT);
}

/* One door at two files, and two doors at one. */
static void two_doors(void)
{
	int other = door_create(serve, (void *)1, 0), copy;

	touch("one");
	touch("two");
	check(fattach(door, "one") == 0 && fattach(door, "two") == 0 && answers("one", "door") && answers("two", "door"));
	fails(fattach(other, "one"), EBUSY);
	fails(fattach(door, "one"), EBUSY);
	check(fdetach("one") == 0 && fattach(other, "one") == 0 && answers("one", "other") && answers("two", "door"));
	/* by what was opened there, once the first descriptor is closed */
	copy = open("one", O_RDWR);
	check(close(other) == 0 && answers("one", "other"));
	touch("three");
	check(fattach(copy, "three") == 0 && close(copy) == 0 && answers("three", "other") && fdetach("one") == 0);
	copy = open("three", O_RDWR);
	check(door_revoke(copy) == 0);
	copy = open("three", O_RDWR);
	fails(door_call(copy, NULL), EBADF);
	check(close(copy) == 0 && fdetach("three") == 0 && fdetach("two") == 0);
	fails(fattach(copy, "three"), EBADF);
}

/* A path of so many bytes, below folders that are made: the last part is as long as it has to be. */
static char *long_path(size_t size)
{
	static char path[PATH_MAX + 64];
	char name[201];
	size_t used = 0;

	memset(name, 'n', sizeof(name));
	while (size - used > 400) {
		used += (size_t)sprintf(path + used, "%.200s", name);
		path[used] = '\0';
		check(mkdir(path, 0700) == 0 || errno == EEXIST);
		path[used++] = '/';
	}
	memset(path + used, 'x', size - used);
	if (size - used > 255)
		path[used + 200] = '/';
	path[size] = '\0';
	if (size - used > 255) {
		path[used + 200] = '\0';
		check(mkdir(path, 0700) == 0 || errno == EEXIST);
		path[used + 200] = '/';
	}
	return path;
}

/* The longest path that the system takes. What is told of its absolute form does not fit. */
static void long_paths(void)
{
	char *path = long_path(PATH_MAX - 1);
	int file = open(path, O_CREAT | O_RDWR, 0600);

	check(file != -1 && close(file) == 0 && there_and_back(path));
	check(fattach(door, path) == 0);
	fails(fattach(door, path), EBUSY);
	check(answers(path, "door") && fdetach(path) == 0);
	path = long_path(PATH_MAX);
	fails(fattach(door, path), ENAMETOOLONG);
	fails(fdetach(path), ENAMETOOLONG);
	fails(open(path, O_RDWR), ENAMETOOLONG);
}

static void is_open(const char *path, int flags) { check(close(open(path, flags)) == 0); }

/* As the owner of a file, whose rights count, and as another. */
static void rights(void)
{
	int is_root = geteuid() == 0;

	check(chmod(".", 0777) == 0);
	touch("roots");
	check(fattach(door, "roots") == 0 && mkdir("closed", 0700) == 0);
	touch("closed/it");
	if (is_root)
		check(seteuid(65534) == 0);
	touch("own");
	check(chmod("own", 0400) == 0);
	fails(fattach(door, "own"), EACCES);
	check(chmod("own", 0) == 0);
	fails(fattach(door, "own"), EACCES);
	check(chmod("own", 0600) == 0 && fattach(door, "own") == 0 && answers("own", "door"));
	check(chmod("own", 0400) == 0);
	is_open("own", O_RDONLY);
	fails(open("own", O_RDWR), EACCES);
	fails(open("own", O_WRONLY | O_TRUNC), EACCES);
	check(chmod("own", 0200) == 0);
	is_open("own", O_WRONLY);
	fails(open("own", O_RDONLY), EACCES);
	check(chmod("own", 0) == 0);
	fails(open("own", O_RDONLY), EACCES);
	if (is_root) {
		fails(fattach(door, "plain"), EPERM);
		fails(fdetach("roots"), EPERM);
		fails(fattach(door, "closed/it"), EACCES);
		fails(fdetach("closed/it"), EACCES);
		check(seteuid(0) == 0);
		is_open("own", O_RDWR);
		check(seteuid(65534) == 0);
	}
	/* the owner detaches, whatever its rights are */
	check(fdetach("own") == 0);
	if (is_root)
		check(seteuid(0) == 0);
	check(fdetach("roots") == 0);
}

static void under_another_root(void)
{
	int here = open("w", O_RDWR);
	char answer[64];

	check(chroot("root") == 0 && chdir("/") == 0);
	touch("door");
	check(fattach(door, "/door") == 0 && answers("/door", "door") && answers("door", "door"));
	fails(open("w", O_RDWR), ENOENT);
	check(ask(here, "echo x", answer, sizeof(answer)) == 0);
	touch("up");
	wait_for("end");
	check(fdetach("door") == 0);
}

/* There is no way to doord any more. */
static void late(void)
{
	check(chroot("root") == 0);
	fails(door_create(serve, NULL, 0), ENOTSUP);
}

int main(int argc, char **argv)
{
	if (argc == 2 && strcmp(argv[1], "late") == 0) {
		late();
		say("done");
		return 0;
	}
	door = door_create(serve, NULL, 0);
	if (argc == 2 && strcmp(argv[1], "chroot") == 0) {
		under_another_root();
		say("done");
		return 0;
	}
	kinds();
	two_doors();
	long_paths();
	rights();
	say("done");
	return 0;
}
