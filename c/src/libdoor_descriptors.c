/*
 * libdoor_descriptors.c: descriptors of the program that stand for those of the kernel. A stand-in is the writing end of a pipe whose
 * reading end doord holds, so doord sees it where one is closed without a word. It is always closed by exec(2), whatever the program has
 * asked for.
 */
#include "libdoor.h"

#include <errno.h>
#include <fcntl.h>
#include <limits.h>
#include <sys/resource.h>
#include <sys/stat.h>
#include <sys/syscall.h>
#include <unistd.h>

/* A descriptor in the table: below, the kernel's number and one, 0 where there is none; then what fcntl(2) tells of it; above, the pipe. */
enum {
	ENTRY_ROW = 0xffff,
	ENTRY_DEAD = 0xffff,    /* in place of a row: it stood for one in the parent, and stands for nothing here */
	ENTRY_CLOSES = 1 << 16, /* FD_CLOEXEC, as the program has it */
	ENTRY_MODE = 17,        /* from this bit on O_RDONLY, O_WRONLY or O_RDWR */
	ENTRY_NO_WAIT = 1 << 19, /* O_NONBLOCK */
	ENTRY_APPENDS = 1 << 20, /* O_APPEND */
	ENTRY_PORT = 1 << 21,   /* it stands for a port */
	ENTRY_PIPE = 32,        /* and from this one its number, by which a descriptor that was closed behind libdoor's back is known */
};

/* By the program's number. */
static struct {
	_Atomic uint64_t entry[LIBDOOR_DESCRIPTORS];
	_Atomic int end; /* all stand-ins are below */
} own;

static const struct stand_in nothing = { .row = WIRE_NO_FD };

static uint64_t entry_of(int fd)
{
	return fd >= 0 && fd < LIBDOOR_DESCRIPTORS ? atomic_load_explicit(&own.entry[fd], memory_order_relaxed) : 0;
}

static struct stand_in read_entry(uint64_t entry)
{
	struct stand_in it = { .row = (uint32_t)(entry & ENTRY_ROW) - 1, .pipe = (uint32_t)(entry >> ENTRY_PIPE) };

	it.is_dead = (entry & ENTRY_ROW) == ENTRY_DEAD;
	if (it.is_dead)
		it.row = WIRE_NO_FD;
	it.flags = (int)(entry >> ENTRY_MODE & O_ACCMODE) | (entry & ENTRY_CLOSES ? O_CLOEXEC : 0)
		| (entry & ENTRY_NO_WAIT ? O_NONBLOCK : 0) | (entry & ENTRY_APPENDS ? O_APPEND : 0)
		| (entry & ENTRY_PORT ? STAND_IN_PORT : 0);
	return it;
}

/* Those that fcntl(2) changes. */
static uint64_t bits_of(int flags)
{
	return (flags & O_CLOEXEC ? ENTRY_CLOSES : 0) | (flags & O_NONBLOCK ? ENTRY_NO_WAIT : 0)
		| (flags & O_APPEND ? ENTRY_APPENDS : 0);
}

static uint64_t entry_for(uint32_t pipe, uint32_t row, int flags)
{
	uint64_t mode = (uint64_t)(flags & O_ACCMODE) << ENTRY_MODE;

	return (uint64_t)pipe << ENTRY_PIPE | mode | bits_of(flags) | (flags & STAND_IN_PORT ? ENTRY_PORT : 0) | (row + 1);
}

/* By the bare system call, since the library's fstat(3) tells of a door. */
static uint32_t pipe_of(int fd)
{
	struct stat found;

	return syscall(SYS_fstat, fd, &found) == 0 && S_ISFIFO(found.st_mode) ? (uint32_t)found.st_ino : 0;
}

static bool is_the_pipe(int fd, uint64_t entry)
{
	return pipe_of(fd) == (uint32_t)(entry >> ENTRY_PIPE);
}

/* Whether it is in the table, though it may be another file's by now. */
bool may_be_stand_in(int fd)
{
	return entry_of(fd) != 0;
}

/* Whether it is one, where this is what the system says of it. */
bool is_stand_in_found(int fd, const struct stat *found)
{
	uint64_t entry = entry_of(fd);

	return entry != 0 && S_ISFIFO(found->st_mode) && (uint32_t)found->st_ino == (uint32_t)(entry >> ENTRY_PIPE);
}

/* What the descriptor stands for: its row is WIRE_NO_FD where it is a file, or not open. */
struct stand_in stand_in_at(int fd)
{
	uint64_t entry = entry_of(fd);
	int error = errno;
	struct stand_in it = entry != 0 && is_the_pipe(fd, entry) ? read_entry(entry) : nothing;

	errno = error;
	return it;
}

/* A door of the parent's is used in a child that was given none. */
void tell_dead(const struct stand_in *it)
{
	static _Atomic int said;

	if (it->is_dead)
		say_once(&said, "libdoor: EBADF: the doors of a program are in its forked child where doord has a child in store for it: "
			"doord -b PROGRAM=THREADS,SPARES,CHILDREN");
}

/* An operand of a request. */
void name_descriptor(struct wire_request *request, const struct stand_in *it)
{
	tell_dead(it);
	request->a = it->row;
	request->d = it->pipe;
}

/* What fcntl(2) tells of these flags from now on. The pipe itself stays as it is. */
void set_flags(int fd, int which, int flags)
{
	uint64_t entry = entry_of(fd), kept = ~bits_of(which);

	while (entry != 0 && !atomic_compare_exchange_weak(&own.entry[fd], &entry, (entry & kept) | bits_of(flags & which)))
		continue;
}

static void put_entry(int fd, uint32_t row, int flags)
{
	int end = atomic_load(&own.end);

	atomic_store(&own.entry[fd], entry_for(pipe_of(fd), row, flags));
	while (fd >= end && !atomic_compare_exchange_weak(&own.end, &end, fd + 1))
		continue;
}

bool forget_stand_in(int fd)
{
	return entry_of(fd) != 0 && atomic_exchange(&own.entry[fd], 0) != 0;
}

/* What the descriptor stands for, and it does not stand for it any more. Of two threads that take the same only one gets it. */
struct stand_in take_stand_in(int fd)
{
	uint64_t entry = entry_of(fd), found = entry;

	if (entry == 0)
		return nothing;
	bool is_there = is_the_pipe(fd, entry);
	bool is_mine = atomic_compare_exchange_strong(&own.entry[fd], &found, 0);
	return is_there && is_mine ? read_entry(entry) : nothing;
}

/* The first stand-in from this number on, or -1. */
int next_stand_in(int from)
{
	int end = atomic_load(&own.end);

	for (int fd = from < 0 ? 0 : from; fd < end; fd++)
		if (entry_of(fd) != 0)
			return fd;
	return -1;
}

/* making them */

/* By the bare system call, as it is closed: what watches descriptors in the program then sees neither. */
int new_pipe(int *end)
{
	return (int)syscall(SYS_pipe2, end, O_CLOEXEC);
}

void close_pipe(const int *end)
{
	int error = errno;

	(void)syscall(SYS_close, end[0]);
	(void)syscall(SYS_close, end[1]);
	errno = error;
}

/* The reading end goes to doord, in place of the pipe of this number, or of none. Where that fails both are closed. */
static int send_end(const int *end, uint32_t row, uint32_t before)
{
	struct wire_message message = { .kind = WIRE_STAND_IN, .a = row, .b = before };

	if (send_message(&message, end, 1) == 0)
		return 0;
	close_pipe(end);
	return -1;
}

/* A pipe whose reading end goes to doord. Both ends are still here. */
static int make_pipe(uint32_t row, int *end)
{
	return new_pipe(end) < 0 ? -1 : send_end(end, row, 0);
}

/* Moves the writing end to the number `fd`, whatever that was; the reading end goes. */
static int settle_pipe(int *end, int fd, uint32_t row, int flags)
{
	if (fd != end[1] && (fd >= LIBDOOR_DESCRIPTORS || real_dup3(end[1], fd, O_CLOEXEC) < 0)) {
		if (fd >= LIBDOOR_DESCRIPTORS)
			errno = EMFILE;
		close_pipe(end);
		return -1;
	}
	for (unsigned i = 0; i < 2; i++)
		if (end[i] != fd)
			(void)syscall(SYS_close, end[i]);
	put_entry(fd, row, flags);
	return fd;
}

/*
 * A descriptor for this one of the kernel, at the lowest number that is free: -1 and errno where there is none. The flags are the access
 * mode and O_CLOEXEC, as fcntl(2) then tells them.
 */
int new_stand_in(uint32_t row, int flags)
{
	int end[2];

	return make_pipe(row, end) < 0 ? -1 : settle_pipe(end, end[0], row, flags);
}

/* At this number, by a pipe that is there: it is closed where that fails. */
int new_stand_in_at(uint32_t row, int flags, int fd, int *end)
{
	return send_end(end, row, 0) < 0 ? -1 : settle_pipe(end, fd, row, flags);
}

/* At the lowest number from `least` on, which may be one that the pipe has taken. */
int new_stand_in_above(uint32_t row, int flags, int least)
{
	int end[2];

	if (make_pipe(row, end) < 0)
		return -1;
	int fd = real_fcntl(end[1], F_DUPFD_CLOEXEC, (void *)(uintptr_t)(unsigned)least);
	int lower = end[0] < end[1] ? end[0] : end[1], upper = end[0] < end[1] ? end[1] : end[0];
	int taken = lower >= least ? lower : upper >= least ? upper : INT_MAX;
	if (fd < 0 ? errno == EMFILE && taken < INT_MAX : taken < fd) {
		if (fd >= 0)
			(void)syscall(SYS_close, fd);
		return settle_pipe(end, taken, row, flags);
	}
	close_pipe(end);
	if (fd >= LIBDOOR_DESCRIPTORS) {
		(void)syscall(SYS_close, fd);
		errno = EMFILE;
		return -1;
	}
	if (fd >= 0)
		put_entry(fd, row, flags);
	return fd;
}

/* Where one lies above the limit, which was lowered since: nothing could be put there, so it is raised for now. */
static bool allow_all(struct rlimit *limit)
{
	if (getrlimit(RLIMIT_NOFILE, limit) < 0 || limit->rlim_cur >= LIBDOOR_DESCRIPTORS || next_stand_in((int)limit->rlim_cur) < 0)
		return false;
	const struct rlimit most = { limit->rlim_max, limit->rlim_max };
	return setrlimit(RLIMIT_NOFILE, &most) == 0;
}

/* It stands for nothing, but its number stays taken, by a pipe of this process: the parent's tells doord of the parent. */
static void end_stand_in(int fd, const struct stand_in *it, const int *end)
{
	if (real_dup3(end[1], fd, O_CLOEXEC) == fd)
		put_entry(fd, ENTRY_DEAD - 1, it->flags);
	close_pipe(end);
}

/*
 * In a forked child: each is changed for one of its own, since those that it has are the parent's. Where it has no rows
 * they stand for nothing, but their numbers stay taken.
 */
void renew_stand_ins(bool have_rows)
{
	const struct wire_message all = { .kind = WIRE_RENEWED };
	struct rlimit limit;
	bool is_low = allow_all(&limit);

	for (int fd = next_stand_in(0); fd >= 0; fd = next_stand_in(fd + 1)) {
		struct stand_in it = take_stand_in(fd);
		int end[2];
		if ((it.row == WIRE_NO_FD && !it.is_dead) || new_pipe(end) < 0)
			continue;
		if (!have_rows || it.is_dead)
			end_stand_in(fd, &it, end);
		else if (send_end(end, it.row, it.pipe) == 0)
			(void)settle_pipe(end, fd, it.row, it.flags);
	}
	if (is_low)
		(void)setrlimit(RLIMIT_NOFILE, &limit);
	if (have_rows)
		(void)send_message(&all, NULL, 0);
}
