/*
 * libdoor_paths.c: fattach(3C), fdetach(3C), and open(2) and its kin of a path to which a door is attached. An attached file is its device
 * and inode, as a table says that doord writes and every program may read.
 */
#include "libdoor.h"

#include <errno.h>
#include <fcntl.h>
#include <limits.h>
#include <stdarg.h>
#include <stdio.h>
#include <stdlib.h>
#include <string.h>
#include <stropts.h>
#include <sys/mman.h>
#include <sys/stat.h>
#include <sys/syscall.h>
#include <unistd.h>

enum { NOT_ATTACHED = -2 };

static struct {
	const struct wire_table *_Atomic table;
	bool is_remembered;
	char path[PATH_MAX];
} own;

/* in place of the table where there is none */
static const struct wire_table no_table;

/* The environment is read before a program that clears it can do so. */
__attribute__((constructor)) static void remember_table(void)
{
	const char *path = own.is_remembered ? NULL : getenv(WIRE_TABLE);

	if (path && strlen(path) < sizeof own.path)
		memcpy(own.path, path, strlen(path) + 1);
	if (!own.is_remembered)
		own.is_remembered = true;
}

static const struct wire_table *map_table(void)
{
	struct stat found;
	void *table = MAP_FAILED;

	remember_table();
	int file = *own.path ? real_openat(AT_FDCWD, own.path, O_RDONLY | O_CLOEXEC, 0) : -1;
	if (file < 0)
		return &no_table;
	if (real_fstat(file, &found) == 0 && found.st_size >= (off_t)sizeof(struct wire_table))
		table = mmap(NULL, sizeof(struct wire_table), PROT_READ, MAP_SHARED, file, 0);
	(void)syscall(SYS_close, file);
	return table == MAP_FAILED ? &no_table : table;
}

static const struct wire_table *the_table(void)
{
	const struct wire_table *table = atomic_load_explicit(&own.table, memory_order_acquire), *none = NULL;

	if (table)
		return table;
	table = map_table();
	if (atomic_compare_exchange_strong(&own.table, &none, table))
		return table;
	if (table != &no_table)
		(void)munmap((void *)(uintptr_t)table, sizeof *table);
	return none;
}

bool are_any_attached(void)
{
	return atomic_load_explicit(&the_table()->attached, memory_order_relaxed) > 0;
}

const struct wire_path *attached_to(const struct stat *found)
{
	const struct wire_table *table = the_table();
	uint32_t count = atomic_load(&table->count);

	for (uint32_t i = 0; i < count && i < WIRE_PATHS; i++)
		if (atomic_load(&table->path[i].used) && atomic_load(&table->path[i].inode) == found->st_ino
			&& atomic_load(&table->path[i].device) == found->st_dev)
			return &table->path[i];
	return NULL;
}

/* open(2) */

static int ask_open(const struct stat *found, int flags)
{
	struct ask ask;

	if (begin_ask(&ask, KERNEL_OP_OPEN) < 0)
		return -1;
	ask.request->c = found->st_dev;
	ask.request->d = found->st_ino;
	if (ask_simply(&ask) < 0)
		return errno == ENOENT ? NOT_ATTACHED : -1;
	uint32_t row = ask.a;
	int fd = new_stand_in(row, flags), error = errno;
	if (fd < 0)
		(void)ask_about(KERNEL_OP_CLOSE, row);
	errno = error;
	return fd;
}

/* A descriptor of the door that is attached, -1 and errno, or NOT_ATTACHED. Who may open the file may open the door. */
static int open_door(int directory, const char *path, int flags)
{
	static const int wanted[] = { [O_RDONLY] = R_OK, [O_WRONLY] = W_OK, [O_RDWR] = R_OK | W_OK, [O_ACCMODE] = R_OK | W_OK };
	struct stat found;
	int error = errno;

	if (!are_any_attached() || (flags & (O_PATH | O_DIRECTORY)))
		return NOT_ATTACHED;
	if (real_fstatat(directory, path, &found, flags & O_NOFOLLOW ? AT_SYMLINK_NOFOLLOW : 0) < 0 || !attached_to(&found)) {
		errno = error;
		return NOT_ATTACHED;
	}
	if ((flags & (O_CREAT | O_EXCL)) == (O_CREAT | O_EXCL)) {
		errno = EEXIST;
		return -1;
	}
	if (faccessat(directory, path, wanted[flags & O_ACCMODE], AT_EACCESS) < 0)
		return -1;
	return ask_open(&found, flags);
}

static int open_at(int directory, const char *path, int flags, mode_t mode)
{
	int fd = open_door(directory, path, flags);

	return fd == NOT_ATTACHED ? real_openat(directory, path, flags, mode) : fd;
}

static bool has_mode(int flags)
{
	return (flags & O_CREAT) || (flags & O_TMPFILE) == O_TMPFILE;
}

#define MODE_AFTER(flags, mode) \
	do { \
		va_list words; \
		va_start(words, flags); \
		mode = has_mode(flags) ? va_arg(words, mode_t) : 0; \
		va_end(words); \
	} while (0)

EXPORT int open(const char *path, int flags, ...)
{
	mode_t mode;

	MODE_AFTER(flags, mode);
	return open_at(AT_FDCWD, path, flags, mode);
}

EXPORT int open64(const char *path, int flags, ...)
{
	mode_t mode;

	MODE_AFTER(flags, mode);
	return open_at(AT_FDCWD, path, flags, mode);
}

EXPORT int openat(int directory, const char *path, int flags, ...)
{
	mode_t mode;

	MODE_AFTER(flags, mode);
	return open_at(directory, path, flags, mode);
}

EXPORT int openat64(int directory, const char *path, int flags, ...)
{
	mode_t mode;

	MODE_AFTER(flags, mode);
	return open_at(directory, path, flags, mode);
}

EXPORT int creat(const char *path, mode_t mode)
{
	return open_at(AT_FDCWD, path, O_CREAT | O_WRONLY | O_TRUNC, mode);
}

EXPORT int creat64(const char *path, mode_t mode)
{
	return open_at(AT_FDCWD, path, O_CREAT | O_WRONLY | O_TRUNC, mode);
}

/* what a program has in their place that was compiled with _FORTIFY_SOURCE */
EXPORT int __open_2(const char *path, int flags);
EXPORT int __open64_2(const char *path, int flags);
EXPORT int __openat_2(int directory, const char *path, int flags);
EXPORT int __openat64_2(int directory, const char *path, int flags);

EXPORT int __open_2(const char *path, int flags)
{
	return open_at(AT_FDCWD, path, flags, 0);
}

EXPORT int __open64_2(const char *path, int flags)
{
	return open_at(AT_FDCWD, path, flags, 0);
}

EXPORT int __openat_2(int directory, const char *path, int flags)
{
	return open_at(directory, path, flags, 0);
}

EXPORT int __openat64_2(int directory, const char *path, int flags)
{
	return open_at(directory, path, flags, 0);
}

/* fattach(3C), fdetach(3C) */

/* The absolute path of an open file, or where that has no room the path as it was given: at most PATH_MAX bytes with its end. */
static int path_of(int file, const char *path, char *text)
{
	char link[64];

	snprintf(link, sizeof link, "/proc/self/fd/%d", file);
	ssize_t size = readlink(link, text, PATH_MAX - 1);
	if (size > 0) {
		text[size] = 0;
		return 0;
	}
	if (realpath(path, text))
		return 0;
	if (errno != ENAMETOOLONG || strlen(path) >= PATH_MAX)
		return -1;
	strcpy(text, path);
	return 0;
}

static int put_text(struct ask *ask, const char *text)
{
	size_t size = strlen(text);

	if (size > WIRE_DATA) {
		errno = ENAMETOOLONG;
		return -1;
	}
	memcpy(ask->request->data, text, size);
	ask->request->data_size = (uint32_t)size;
	return 0;
}

/* Only the owner of a file, and root, attach to it and detach from it. */
static int see_owner(const struct stat *found)
{
	if (geteuid() == 0 || geteuid() == found->st_uid)
		return 0;
	errno = EPERM;
	return -1;
}

static int ask_attach(const struct stand_in *it, int file, const char *text)
{
	struct ask ask;

	if (begin_ask(&ask, KERNEL_OP_ATTACH) < 0)
		return -1;
	name_descriptor(ask.request, it);
	ask.request->files = 1;
	if (put_text(&ask, text) < 0 || send_files(ask.index, ask.number, &file, 1) < 0) {
		give_up_ask(&ask);
		return -1;
	}
	return ask_simply(&ask);
}

/* A folder gets no door: what lies in it would be out of reach. */
static int attach_at(const struct stand_in *it, int file, const char *path)
{
	char text[PATH_MAX];
	struct stat found;

	if (real_fstat(file, &found) < 0)
		return -1;
	if (S_ISDIR(found.st_mode)) {
		errno = EINVAL;
		return -1;
	}
	if (see_owner(&found) < 0 || faccessat(AT_FDCWD, path, W_OK, AT_EACCESS) < 0 || path_of(file, path, text) < 0)
		return -1;
	return ask_attach(it, file, text);
}

EXPORT int fattach(int fd, const char *path)
{
	const struct stand_in it = stand_in_at(fd);

	if (it.row == WIRE_NO_FD) {
		errno = real_fcntl(fd, F_GETFD, NULL) < 0 ? EBADF : EINVAL;
		return -1;
	}
	int file = real_openat(AT_FDCWD, path, O_PATH | O_CLOEXEC, 0);
	if (file < 0)
		return -1;
	int result = attach_at(&it, file, path), error = errno;
	(void)syscall(SYS_close, file);
	errno = error;
	return result;
}

EXPORT int fdetach(const char *path)
{
	struct stat found;
	struct ask ask;

	if (real_fstatat(AT_FDCWD, path, &found, 0) < 0)
		return -1;
	if (!attached_to(&found)) {
		errno = EINVAL;
		return -1;
	}
	if (see_owner(&found) < 0 || begin_ask(&ask, KERNEL_OP_DETACH) < 0)
		return -1;
	ask.request->c = found.st_dev;
	ask.request->d = found.st_ino;
	if (ask_simply(&ask) == 0)
		return 0;
	errno = errno == ENOENT ? EINVAL : errno;
	return -1;
}

/* waiting for a server */

static int ask_await(const struct stat *found)
{
	struct ask ask;

	if (begin_ask(&ask, KERNEL_OP_AWAIT) < 0)
		return -1;
	ask.request->c = found->st_dev;
	ask.request->d = found->st_ino;
	if (wait_answer(&ask, AT_WAIT) < 0)
		return -1;
	int error = (int)ask.reply->error;
	end_ask(&ask);
	errno = error;
	return error == 0 ? 0 : -1;
}

/*
 * Waits until a valid door is attached to the path, where nothing need be yet, so many milliseconds at most, or for good where they are
 * below 0. For doorwait(1). It looks again and again: what the path leads to may change in any way, and nobody tells of that.
 */
int libdoor_await(const char *path, long most)
{
	static const struct timespec between = { .tv_nsec = 10000000 };
	struct stat found;

	for (long waited = 0;; waited += 10) {
		const struct wire_path *attached = real_fstatat(AT_FDCWD, path, &found, 0) == 0 ? attached_to(&found) : NULL;
		if (attached && atomic_load(&attached->served)) {
			int result = ask_await(&found);
			/* doord may have seen only now that the server has ended */
			if (result == 0 ? atomic_load(&attached->served) : errno != ENOENT)
				return result;
		}
		if (the_table() == &no_table)
			return open_connection();
		if (most >= 0 && waited >= most) {
			errno = ETIMEDOUT;
			return -1;
		}
		(void)nanosleep(&between, NULL);
	}
}
