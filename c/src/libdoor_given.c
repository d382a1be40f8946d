/*
 * libdoor_given.c: what a thread was given with the results of a call, or with an invocation: descriptors, and a file of bytes. A handler of
 * signals may run before the program has them, and jump away, so that nobody comes back for them. So they are noted in memory of the thread,
 * and what was left is closed at its next request, or at its end.
 */
#include "libdoor.h"

#include <errno.h>
#include <string.h>
#include <sys/mman.h>
#include <sys/syscall.h>
#include <unistd.h>

struct given {
	struct came came; /* the first, so that this is a note's address */
	struct given *next; /* what a thread was given before, in whose place a handler runs */
	uintptr_t handler; /* the frame of the handler that runs before it is taken, or 0 */
};

/* Memory that is there as long as the thread is: NULL where there is none. */
static struct given *new_given(void)
{
	struct given *given = thread.spare;

	thread.spare = NULL;
	if (given)
		return given;
	void *at = mmap(NULL, sizeof *given, PROT_READ | PROT_WRITE, MAP_PRIVATE | MAP_ANONYMOUS, -1, 0);
	return at == MAP_FAILED ? NULL : at;
}

static void free_given(struct given *given)
{
	if (thread.spare)
		(void)munmap(given, sizeof *given);
	else
		thread.spare = given;
}

/* Notes it, where it is anything. Where there is no memory for that it stays where it is, and is lost where a handler jumps. */
struct came *note_came(struct came *came)
{
	int error = errno;
	struct given *given = came->count > 0 || came->is_beside ? new_given() : NULL;

	errno = error;
	if (!given)
		return came;
	given->came = *came;
	given->came.is_noted = true;
	given->handler = 0;
	given->next = thread.given;
	atomic_signal_fence(memory_order_seq_cst);
	thread.given = given;
	return &given->came;
}

/* The program has it, or it is closed. */
void forget_came(struct came *came)
{
	struct given **at = &thread.given;

	if (!came->is_noted)
		return;
	while (*at && &(*at)->came != came)
		at = &(*at)->next;
	struct given *given = *at;
	if (!given)
		return;
	*at = given->next;
	free_given(given);
}

static void close_one(int *fd)
{
	int file = *fd;

	*fd = -1;
	if (file < 0)
		return;
	(void)forget_stand_in(file);
	(void)syscall(SYS_close, file);
}

/* All of it is closed, each once, also where a handler jumps away in the middle: then the rest is closed later. */
void drop_came(struct came *came)
{
	int error = errno;

	for (unsigned i = 0; i < came->count; i++) {
		uint32_t row = came->passed[i].fd;
		came->passed[i].fd = WIRE_NO_FD;
		/* the kernel's first: doord closes it by itself where its stand-in goes, and then another one may have its number */
		if (row != WIRE_NO_FD)
			(void)ask_about(KERNEL_OP_CLOSE, row);
		close_one(&came->fd[i]);
	}
	close_one(&came->beside);
	forget_came(came);
	errno = error;
}

/* A handler begins, which is this frame: what was given before waits for its end. */
struct given *begin_over_given(uintptr_t handler)
{
	struct given *given = thread.given;

	if (!given || given->handler != 0)
		return NULL;
	given->handler = handler;
	return given;
}

void end_over_given(struct given *given)
{
	if (given)
		given->handler = 0;
}

/* What was given to requests whose handlers have jumped away; at the thread's end all of it. */
void drop_given(bool is_end)
{
	struct given *given = thread.given;

	while (given && (is_end || (given->handler != 0 && is_frame_left(given->handler)))) {
		given->handler = 0;
		drop_came(&given->came);
		given = thread.given;
	}
	if (!is_end || !thread.spare)
		return;
	(void)munmap(thread.spare, sizeof *thread.spare);
	thread.spare = NULL;
}

/* In a forked child the kernel's are closed already, since no pipe stands for them; files are the child's, too. */
void forget_given(void)
{
	for (struct given *given = thread.given; given; given = given->next) {
		for (unsigned i = 0; i < given->came.count; i++)
			close_one(&given->came.fd[i]);
		close_one(&given->came.beside);
		given->came.count = 0;
	}
}
