/*
 * libdoor_close.c: close(2), dup(2), fcntl(2) and their kin, of descriptors that stand for those of the kernel. All others are the system's
 * at once. The descriptors that libdoor keeps cannot be closed: that is EBADF, and nothing is done.
 */
#include "libdoor.h"

#include <errno.h>
#include <fcntl.h>
#include <limits.h>
#include <linux/close_range.h>
#include <stdarg.h>
#include <sys/resource.h>
#include <sys/syscall.h>
#include <unistd.h>

static bool is_kept_here(int fd)
{
	return is_kept(fd) && is_connected_here();
}

/* A child by vfork(2) has its parent's memory, and descriptors of its own. */
static bool is_stand_in_here(int fd)
{
	return may_be_stand_in(fd) && is_connected_here() && stand_in_at(fd).row != WIRE_NO_FD;
}

static int bad_descriptor(void)
{
	errno = EBADF;
	return -1;
}

/* In the kernel it is closed. The pipe is not: its number is not free yet. */
static bool close_in_kernel(int fd)
{
	struct stand_in it = take_stand_in(fd);
	int error = errno;

	if (it.row == WIRE_NO_FD)
		return false;
	(void)ask_about_descriptor(KERNEL_OP_CLOSE, &it);
	errno = error;
	return true;
}

EXPORT int close(int fd)
{
	if (is_kept_here(fd))
		return bad_descriptor();
	close_source(fd);
	if (!may_be_stand_in(fd) || !is_connected_here() || !close_in_kernel(fd))
		return real_close(fd);
	return (int)syscall(SYS_close, fd);
}

/* The first descriptor that is kept, from this number on, or -1. */
static int next_kept(int from)
{
	const int kept[] = { atomic_load(&connection.control), atomic_load(&connection.bell), atomic_load(&connection.poller) };
	int found = -1;

	for (unsigned i = 0; i < sizeof kept / sizeof *kept; i++)
		if (kept[i] >= from && (found < 0 || kept[i] < found))
			found = kept[i];
	return found;
}

/* The numbers from `first` to `last`, without those that are kept. */
static int close_around(unsigned first, unsigned last, int flags)
{
	unsigned from = first;

	for (int at = next_kept((int)(from > INT_MAX ? INT_MAX : from)); at >= 0 && (unsigned)at <= last; at = next_kept(at + 1)) {
		if ((unsigned)at > from && real_close_range(from, (unsigned)at - 1, flags) < 0)
			return -1;
		from = (unsigned)at + 1;
	}
	return from <= last && from >= first ? real_close_range(from, last, flags) : 0;
}

/*
 * With CLOSE_RANGE_CLOEXEC nothing is closed now. With CLOSE_RANGE_UNSHARE other threads keep theirs, so a close is made in the kernel when
 * nobody has the descriptor any more.
 */
EXPORT int close_range(unsigned first, unsigned last, int flags)
{
	const int known = CLOSE_RANGE_UNSHARE | CLOSE_RANGE_CLOEXEC;

	if ((flags & ~known) || first > last || !is_connected_here())
		return real_close_range(first, last, flags);
	int from = next_stand_in(first > INT_MAX ? INT_MAX : (int)first);
	for (int fd = next_source(first > INT_MAX ? INT_MAX : (int)first); flags == 0 && fd >= 0 && (unsigned)fd <= last; fd = next_source(fd + 1))
		close_source(fd);
	for (int fd = from; fd >= 0 && (unsigned)fd <= last; fd = next_stand_in(fd + 1)) {
		if (flags & CLOSE_RANGE_CLOEXEC)
			set_flags(fd, O_CLOEXEC, O_CLOEXEC);
		else if (flags == 0)
			(void)close_in_kernel(fd);
	}
	return close_around(first, last, flags);
}

EXPORT void closefrom(int first)
{
	(void)close_range(first < 0 ? 0 : (unsigned)first, UINT_MAX, 0);
}

/* copies */

/* A copy in the kernel: its number there, or -1 and errno. */
static int copy_in_kernel(const struct stand_in *it, uint32_t *row)
{
	struct ask ask;

	if (begin_ask(&ask, KERNEL_OP_DUPLICATE) < 0)
		return -1;
	name_descriptor(ask.request, it);
	if (ask_simply(&ask) < 0)
		return -1;
	*row = ask.a;
	return 0;
}

/* Where the program has no room for a copy, the kernel's goes again. */
static int or_close(int fd, uint32_t row)
{
	int error = errno;

	if (fd < 0) {
		(void)ask_about(KERNEL_OP_CLOSE, row);
		errno = error;
	}
	return fd;
}

/* What fcntl(2) tells of a copy: all is as of the first, but for close-on-exec. */
static int flags_of_copy(const struct stand_in *it, int closes)
{
	return (it->flags & ~O_CLOEXEC) | closes;
}

static int copy_above(int fd, int least, int closes)
{
	const struct stand_in it = stand_in_at(fd);
	uint32_t row;

	return copy_in_kernel(&it, &row) < 0 ? -1 : or_close(new_stand_in_above(row, flags_of_copy(&it, closes), least), row);
}

EXPORT int dup(int fd)
{
	uint32_t row;

	if (is_kept_here(fd))
		return bad_descriptor();
	if (!is_stand_in_here(fd))
		return real_dup(fd);
	const struct stand_in it = stand_in_at(fd);
	return copy_in_kernel(&it, &row) < 0 ? -1 : or_close(new_stand_in(row, flags_of_copy(&it, 0)), row);
}

/*
 * A copy of a door's descriptor at the number `to`. What that was is closed first, in the kernel as well, but not where there is no room
 * for the copy.
 */
static int copy_door_to(int from, int to, int closes)
{
	const struct stand_in it = stand_in_at(from);
	uint32_t row;
	int end[2];

	if (new_pipe(end) < 0)
		return -1;
	bool was_door = is_stand_in_here(to) && close_in_kernel(to);
	if (copy_in_kernel(&it, &row) == 0)
		return or_close(new_stand_in_at(row, flags_of_copy(&it, closes), to, end), row);
	int error = errno;
	close_pipe(end);
	if (was_door)
		(void)syscall(SYS_close, to);
	errno = error;
	return -1;
}

static int copy_to(int from, int to, int flags)
{
	struct rlimit limit;

	if (is_kept_here(from) || is_kept_here(to) || real_fcntl(from, F_GETFD, NULL) < 0)
		return bad_descriptor();
	if (!is_stand_in_here(from)) {
		if (getrlimit(RLIMIT_NOFILE, &limit) == 0 && (rlim_t)to < limit.rlim_cur)
			(void)close_in_kernel(to);
		return flags == 0 ? real_dup2(from, to) : real_dup3(from, to, flags);
	}
	if (to < 0 || to >= LIBDOOR_DESCRIPTORS || getrlimit(RLIMIT_NOFILE, &limit) < 0 || (rlim_t)to >= limit.rlim_cur)
		return bad_descriptor();
	return copy_door_to(from, to, flags & O_CLOEXEC);
}

static bool are_the_systems(int from, int to)
{
	return !is_kept_here(from) && !is_kept_here(to) && !is_stand_in_here(from) && !is_stand_in_here(to);
}

EXPORT int dup2(int from, int to)
{
	if (from != to && real_fcntl(from, F_GETFD, NULL) >= 0)
		close_source(to);
	return from == to || are_the_systems(from, to) ? real_dup2(from, to) : copy_to(from, to, 0);
}

EXPORT int dup3(int from, int to, int flags)
{
	if (from != to && !(flags & ~O_CLOEXEC) && real_fcntl(from, F_GETFD, NULL) >= 0)
		close_source(to);
	return from == to || (flags & ~O_CLOEXEC) || are_the_systems(from, to) ? real_dup3(from, to, flags) : copy_to(from, to, flags);
}

/* fcntl(2) */

/* A stand-in is always closed by exec(2), so FD_CLOEXEC is what the program has asked for, and so are the flags of open(2). */
static int control_door(int fd, int command, void *argument)
{
	const struct stand_in it = stand_in_at(fd);
	const int changed = O_NONBLOCK | O_APPEND, all = changed | O_ACCMODE;
	int found;

	switch (command) {
	case F_DUPFD:
		return copy_above(fd, (int)(intptr_t)argument, 0);
	case F_DUPFD_CLOEXEC:
		return copy_above(fd, (int)(intptr_t)argument, O_CLOEXEC);
	case F_GETFD:
		return it.flags & O_CLOEXEC ? FD_CLOEXEC : 0;
	case F_SETFD:
		set_flags(fd, O_CLOEXEC, (intptr_t)argument & FD_CLOEXEC ? O_CLOEXEC : 0);
		return 0;
	case F_GETFL:
		found = real_fcntl(fd, F_GETFL, NULL);
		return found < 0 ? found : (found & ~all) | (it.flags & all);
	case F_SETFL:
		found = real_fcntl(fd, F_SETFL, argument);
		if (found == 0)
			set_flags(fd, changed, (int)(intptr_t)argument);
		return found;
	default:
		return real_fcntl(fd, command, argument);
	}
}

static int control_file(int fd, int command, void *argument)
{
	if (is_kept_here(fd))
		return bad_descriptor();
	return is_stand_in_here(fd) ? control_door(fd, command, argument) : real_fcntl(fd, command, argument);
}

EXPORT int fcntl(int fd, int command, ...)
{
	va_list words;

	va_start(words, command);
	void *argument = va_arg(words, void *);
	va_end(words);
	return control_file(fd, command, argument);
}

EXPORT int fcntl64(int fd, int command, ...)
{
	va_list words;

	va_start(words, command);
	void *argument = va_arg(words, void *);
	va_end(words);
	return control_file(fd, command, argument);
}
