/*
 * libdoor_stat.c: stat(2) and its kin. A door is told of by the type S_IFDOOR, and a port by S_IFPORT, of a descriptor that stands for one, and of a path to which
 * one is attached; what else is told of such a path is the file's. All others are the system's.
 */
#include "libdoor.h"

#include <fcntl.h>
#include <sys/sysmacros.h>

enum { DOOR_RIGHTS = 0777 };

static void tell_door(struct stat *found, mode_t rights)
{
	found->st_mode = S_IFDOOR | rights;
	found->st_nlink = 1;
	found->st_size = 0;
	found->st_blocks = 0;
}

/* Of what stands for a door or a port. */
static mode_t type_of(int fd)
{
	return stand_in_at(fd).flags & STAND_IN_PORT ? S_IFPORT : S_IFDOOR;
}

static int tell_descriptor(int fd, int result, struct stat *found)
{
	if (result != 0 || !is_stand_in_found(fd, found))
		return result;
	tell_door(found, DOOR_RIGHTS);
	found->st_mode = type_of(fd) | DOOR_RIGHTS;
	return result;
}

static bool is_empty(const char *path, int flags)
{
	return (flags & AT_EMPTY_PATH) && (!path || !*path);
}

/* With AT_EMPTY_PATH the file of a descriptor is told of, which has no path. */
static int stat_at(int directory, const char *path, struct stat *found, int flags)
{
	int result = real_fstatat(directory, path, found, flags);

	if (result == 0 && is_empty(path, flags))
		return tell_descriptor(directory, result, found);
	if (result == 0 && are_any_attached() && attached_to(found))
		tell_door(found, found->st_mode & ~(mode_t)S_IFMT);
	return result;
}

EXPORT int fstat(int fd, struct stat *found)
{
	return tell_descriptor(fd, real_fstat(fd, found), found);
}

EXPORT int fstatat(int directory, const char *path, struct stat *found, int flags)
{
	return stat_at(directory, path, found, flags);
}

EXPORT int stat(const char *path, struct stat *found)
{
	return stat_at(AT_FDCWD, path, found, 0);
}

EXPORT int lstat(const char *path, struct stat *found)
{
	return stat_at(AT_FDCWD, path, found, AT_SYMLINK_NOFOLLOW);
}

/* the same under their other names: of this system struct stat64 is struct stat */

_Static_assert(sizeof(struct stat64) == sizeof(struct stat), "there is one struct stat");

EXPORT int fstat64(int fd, struct stat64 *found)
{
	return fstat(fd, (struct stat *)found);
}

EXPORT int fstatat64(int directory, const char *path, struct stat64 *found, int flags)
{
	return stat_at(directory, path, (struct stat *)found, flags);
}

EXPORT int stat64(const char *path, struct stat64 *found)
{
	return stat_at(AT_FDCWD, path, (struct stat *)found, 0);
}

EXPORT int lstat64(const char *path, struct stat64 *found)
{
	return stat_at(AT_FDCWD, path, (struct stat *)found, AT_SYMLINK_NOFOLLOW);
}

/* what programs have in their place that were linked before glibc 2.33 */

EXPORT int __fxstat(int version, int fd, struct stat *found);
EXPORT int __fxstatat(int version, int directory, const char *path, struct stat *found, int flags);
EXPORT int __xstat(int version, const char *path, struct stat *found);
EXPORT int __lxstat(int version, const char *path, struct stat *found);
EXPORT int __fxstat64(int version, int fd, struct stat64 *found);
EXPORT int __fxstatat64(int version, int directory, const char *path, struct stat64 *found, int flags);
EXPORT int __xstat64(int version, const char *path, struct stat64 *found);
EXPORT int __lxstat64(int version, const char *path, struct stat64 *found);

EXPORT int __fxstat(int version, int fd, struct stat *found)
{
	(void)version;
	return fstat(fd, found);
}

EXPORT int __fxstatat(int version, int directory, const char *path, struct stat *found, int flags)
{
	(void)version;
	return stat_at(directory, path, found, flags);
}

EXPORT int __xstat(int version, const char *path, struct stat *found)
{
	(void)version;
	return stat_at(AT_FDCWD, path, found, 0);
}

EXPORT int __lxstat(int version, const char *path, struct stat *found)
{
	(void)version;
	return stat_at(AT_FDCWD, path, found, AT_SYMLINK_NOFOLLOW);
}

EXPORT int __fxstat64(int version, int fd, struct stat64 *found)
{
	(void)version;
	return fstat64(fd, found);
}

EXPORT int __fxstatat64(int version, int directory, const char *path, struct stat64 *found, int flags)
{
	(void)version;
	return fstatat64(directory, path, found, flags);
}

EXPORT int __xstat64(int version, const char *path, struct stat64 *found)
{
	(void)version;
	return stat64(path, found);
}

EXPORT int __lxstat64(int version, const char *path, struct stat64 *found)
{
	(void)version;
	return lstat64(path, found);
}

/* statx(2), by which the system's own tools look. */
EXPORT int statx(int directory, const char *path, int flags, unsigned mask, struct statx *found)
{
	int result = real_statx(directory, path, flags, mask, found);

	if (result != 0 || !(found->stx_mask & STATX_INO) || !(found->stx_mask & STATX_TYPE))
		return result;
	struct stat file = { .st_mode = found->stx_mode, .st_ino = found->stx_ino, .st_dev = makedev(found->stx_dev_major, found->stx_dev_minor) };
	bool is_door;
	if (is_empty(path, flags))
		is_door = is_stand_in_found(directory, &file);
	else
		is_door = are_any_attached() && attached_to(&file);
	if (!is_door)
		return result;
	if (is_empty(path, flags))
		found->stx_mode = (uint16_t)(type_of(directory) | DOOR_RIGHTS);
	else
		found->stx_mode = (uint16_t)(S_IFDOOR | (file.st_mode & ~(mode_t)S_IFMT));
	found->stx_nlink = 1;
	found->stx_size = 0;
	found->stx_blocks = 0;
	return result;
}
