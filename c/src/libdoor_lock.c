/* libdoor_lock.c: the lock, signals that are kept off, sleeping, and lines for the user. All of it may be used in a handler of signals. */
#include "libdoor.h"

#include <errno.h>
#include <linux/futex.h>
#include <string.h>
#include <sys/syscall.h>
#include <unistd.h>

/* One lock for all that is rare: connecting, setting handlers, taking files that came, forking. */
enum { LOCK_FREE, LOCK_TAKEN, LOCK_WAITED_FOR };

static _Atomic uint32_t lock;

/* The thread's mask of signals is changed by the bare system call, whose masks have 64 bits. */
uint64_t set_mask(uint64_t mask)
{
	uint64_t old = 0;

	(void)syscall(SYS_rt_sigprocmask, SIG_SETMASK, &mask, &old, sizeof mask);
	return old;
}

/* Sleeps while the word has this value: 0, or an error, of which only ETIMEDOUT means anything. No point of cancellation. */
int futex_wait(_Atomic uint32_t *word, uint32_t value, const struct timespec *most)
{
	return syscall(SYS_futex, word, FUTEX_WAIT, value, most, NULL, 0) == 0 ? 0 : errno;
}

/* Whoever has the lock keeps all signals off, so that no handler finds it taken by its own thread. The mask is for give_lock. */
uint64_t take_lock(void)
{
	uint64_t mask = set_mask(SIGNALS_ALL);
	uint32_t seen = LOCK_FREE;

	if (atomic_compare_exchange_strong(&lock, &seen, LOCK_TAKEN))
		return mask;
	while (atomic_exchange(&lock, LOCK_WAITED_FOR) != LOCK_FREE)
		(void)futex_wait(&lock, LOCK_WAITED_FOR, NULL);
	return mask;
}

void give_lock(uint64_t mask)
{
	if (atomic_exchange(&lock, LOCK_FREE) == LOCK_WAITED_FOR)
		(void)syscall(SYS_futex, &lock, FUTEX_WAKE, 1, NULL, NULL, 0);
	(void)set_mask(mask);
}

/* A line on the error stream, at once and without its buffer. */
void say(const char *line)
{
	char text[256];
	size_t size = strnlen(line, sizeof text - 1);
	int error = errno;

	memcpy(text, line, size);
	text[size] = '\n';
	(void)!syscall(SYS_write, STDERR_FILENO, text, size + 1);
	errno = error;
}

void say_once(_Atomic int *said, const char *line)
{
	if (atomic_exchange_explicit(said, 1, memory_order_relaxed) == 0)
		say(line);
}
