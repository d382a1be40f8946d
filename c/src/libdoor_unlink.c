/*
 * libdoor_unlink.c: unlink(2), rename(2) and their kin. A file to which the door of a living server is attached keeps its name: EBUSY. That of
 * a server that has ended goes as any other.
 */
#include "libdoor.h"

#include <errno.h>
#include <fcntl.h>
#include <stdio.h>
#include <unistd.h>

/* Not what a link leads to, since it is the link that would go. */
static bool is_busy(int directory, const char *path)
{
	int error = errno;
	struct stat found;
	bool busy = false;

	if (are_any_attached() && real_fstatat(directory, path, &found, AT_SYMLINK_NOFOLLOW) == 0) {
		const struct wire_path *attached = attached_to(&found);
		busy = attached && atomic_load(&attached->served);
	}
	errno = busy ? EBUSY : error;
	return busy;
}

EXPORT int unlink(const char *path)
{
	return is_busy(AT_FDCWD, path) ? -1 : real_unlink(path);
}

EXPORT int unlinkat(int directory, const char *path, int flags)
{
	return !(flags & AT_REMOVEDIR) && is_busy(directory, path) ? -1 : real_unlinkat(directory, path, flags);
}

EXPORT int remove(const char *path)
{
	return is_busy(AT_FDCWD, path) ? -1 : real_remove(path);
}

/* Where there is nothing to rename, the system says so. */
static bool is_missing(int directory, const char *path)
{
	struct stat found;
	int error = errno;
	bool is_there = real_fstatat(directory, path, &found, AT_SYMLINK_NOFOLLOW) == 0;

	errno = error;
	return !is_there;
}

static bool are_busy(int from_directory, const char *from, int to_directory, const char *to)
{
	return is_busy(from_directory, from) || (is_busy(to_directory, to) && !is_missing(from_directory, from));
}

EXPORT int renameat(int from_directory, const char *from, int to_directory, const char *to)
{
	return are_busy(from_directory, from, to_directory, to) ? -1 : real_renameat(from_directory, from, to_directory, to);
}

EXPORT int rename(const char *from, const char *to)
{
	return renameat(AT_FDCWD, from, AT_FDCWD, to);
}

/* With RENAME_NOREPLACE what is there stays, and the system says so. */
EXPORT int renameat2(int from_directory, const char *from, int to_directory, const char *to, unsigned flags)
{
	bool busy = flags & RENAME_NOREPLACE ? is_busy(from_directory, from) : are_busy(from_directory, from, to_directory, to);

	return busy ? -1 : real_renameat2(from_directory, from, to_directory, to, flags);
}
