/* stats: what stat(2) and its kin tell of doors, of files to which one is attached, and of all others. */
#define _GNU_SOURCE 1
#include "test.h"

static struct stat before; /* of the file, with nothing attached to it */

static void serve(void *cookie, char *argument, size_t size, door_desc_t *descriptors, uint_t descriptor_count)
{
	(void)cookie;
	(void)argument;
	(void)size;
	(void)descriptors;
	(void)descriptor_count;
	give("door");
}

/* as older programs call it */
int __xstat(int, const char *, struct stat *);
int __lxstat(int, const char *, struct stat *);
int __fxstat(int, int, struct stat *);
int __fxstatat(int, int, const char *, struct stat *, int);
int __xstat64(int, const char *, struct stat64 *);
int __lxstat64(int, const char *, struct stat64 *);
int __fxstat64(int, int, struct stat64 *);
int __fxstatat64(int, int, const char *, struct stat64 *, int);

/* The type, where the call succeeds. */
#define type(call, mode) ((call) == 0 ? (mode_t)(mode) & S_IFMT : (mode_t)-1)

/* All that tell of a path agree that it has this type. */
static void is_all(const char *path, mode_t wanted)
{
	struct stat it;
	struct stat64 large;
	struct statx more;

	check(type(stat(path, &it), it.st_mode) == wanted && type(lstat(path, &it), it.st_mode) == wanted);
	check(type(fstatat(AT_FDCWD, path, &it, 0), it.st_mode) == wanted);
	check(type(fstatat(AT_FDCWD, path, &it, AT_SYMLINK_NOFOLLOW), it.st_mode) == wanted);
	check(type(stat64(path, &large), large.st_mode) == wanted && type(lstat64(path, &large), large.st_mode) == wanted);
	check(type(fstatat64(AT_FDCWD, path, &large, 0), large.st_mode) == wanted);
	check(type(statx(AT_FDCWD, path, 0, STATX_BASIC_STATS, &more), more.stx_mode) == wanted);
	check(type(__xstat(1, path, &it), it.st_mode) == wanted && type(__lxstat(1, path, &it), it.st_mode) == wanted);
	check(type(__fxstatat(1, AT_FDCWD, path, &it, 0), it.st_mode) == wanted);
	check(type(__xstat64(1, path, &large), large.st_mode) == wanted && type(__lxstat64(1, path, &large), large.st_mode) == wanted);
	check(type(__fxstatat64(1, AT_FDCWD, path, &large, 0), large.st_mode) == wanted);
}

/* The same of a descriptor. */
static void is_descriptor(int file, mode_t wanted)
{
	struct stat it;
	struct stat64 large;
	struct statx more;

	check(type(fstat(file, &it), it.st_mode) == wanted);
	check(type(fstatat(file, "", &it, AT_EMPTY_PATH), it.st_mode) == wanted);
	check(type(fstat64(file, &large), large.st_mode) == wanted);
	check(type(fstatat64(file, "", &large, AT_EMPTY_PATH), large.st_mode) == wanted);
	check(type(statx(file, "", AT_EMPTY_PATH, STATX_BASIC_STATS, &more), more.stx_mode) == wanted);
	check(type(__fxstat(1, file, &it), it.st_mode) == wanted && type(__fxstat64(1, file, &large), large.st_mode) == wanted);
}

/* What is attached has the rights, the owner and the times of its file. */
static void as_the_file(const char *path)
{
	struct stat it;
	struct statx more;

	check(stat(path, &it) == 0 && S_ISDOOR(it.st_mode) && !S_ISREG(it.st_mode));
	check((it.st_mode & 07777) == (before.st_mode & 07777) && it.st_uid == before.st_uid && it.st_gid == before.st_gid);
	check(it.st_mtime == before.st_mtime && it.st_ino == before.st_ino && it.st_dev == before.st_dev);
	check(it.st_nlink == 1 && it.st_size == 0);
	check(statx(AT_FDCWD, path, 0, STATX_BASIC_STATS, &more) == 0 && more.stx_mode == it.st_mode && more.stx_size == 0);
}

static void descriptors(int door, int plain)
{
	struct stat it;
	int opened = open("attached", O_RDWR), copy = dup(opened), alone = open("attached", O_PATH), pipes[2];

	check(fstat(door, &it) == 0 && it.st_mode == (S_IFDOOR | 0777) && it.st_size == 0);
	is_descriptor(door, S_IFDOOR);
	is_descriptor(opened, S_IFDOOR);
	is_descriptor(copy, S_IFDOOR);
	/* who had the file open before has it still, and O_PATH gets it */
	is_descriptor(plain, S_IFREG);
	is_descriptor(alone, S_IFREG);
	check(close(copy) == 0 && close(opened) == 0);
	fails(fstat(opened, &it), EBADF);
	/* the number is a pipe's now, and was a door's */
	check(pipe(pipes) == 0 && pipes[0] == opened && pipes[1] == copy);
	is_descriptor(pipes[0], S_IFIFO);
	is_descriptor(pipes[1], S_IFIFO);
	check(close(pipes[0]) == 0 && close(pipes[1]) == 0 && close(alone) == 0);
}

static void others(void)
{
	struct stat it;
	struct statx more;

	is_all("plain", S_IFREG);
	is_all(".", S_IFDIR);
	is_all("/dev/null", S_IFCHR);
	fails(stat("not_there", &it), ENOENT);
	fails(lstat("plain/x", &it), ENOTDIR);
	fails(stat((const char *)8, &it), EFAULT);
	fails(fstatat(AT_FDCWD, "", &it, 0), ENOENT);
	fails(statx(AT_FDCWD, "not_there", 0, STATX_BASIC_STATS, &more), ENOENT);
	fails(fstat(-1, &it), EBADF);
	fails(fstat(999, &it), EBADF);
	fails(fstatat(999, "plain", &it, 0), EBADF);
	check(fstatat(AT_FDCWD, "", &it, AT_EMPTY_PATH) == 0 && S_ISDIR(it.st_mode));
}

int main(void)
{
	int plain = open("attached", O_CREAT | O_RDWR, 0640), folder, door = door_create(serve, NULL, 0);
	struct stat it;

	check(write(plain, "file", 4) == 4 && fstat(plain, &before) == 0 && before.st_size == 4);
	check(symlink("attached", "link") == 0);
	touch("plain");
	is_all("attached", S_IFREG);
	check(fattach(door, "attached") == 0);
	is_all("attached", S_IFDOOR);
	as_the_file("attached");
	as_the_file("link");
	check(lstat("link", &it) == 0 && S_ISLNK(it.st_mode));
	folder = open(".", O_RDONLY | O_DIRECTORY);
	check(fstatat(folder, "attached", &it, 0) == 0 && S_ISDOOR(it.st_mode));
	check(chmod("attached", 0604) == 0 && stat("attached", &it) == 0 && it.st_mode == (S_IFDOOR | 0604));
	descriptors(door, plain);
	others();
	check(link("attached", "hard") == 0);
	is_all("hard", S_IFDOOR);
	check(fdetach("attached") == 0);
	is_all("attached", S_IFREG);
	check(stat("attached", &it) == 0 && it.st_size == 4 && it.st_nlink == 2);
	is_descriptor(door, S_IFDOOR);
	check(door_revoke(door) == 0);
	fails(fstat(door, &it), EBADF);
	say("done");
	return 0;
}
