/*
 * libdoor_lend.c: a handler of signals makes a call, in a thread that waits in door_return(3C). The kernel may give that very call to the
 * thread, or one that comes of it, and the handler would wait for good. So the wait is lent: a thread of the library has it, and serves,
 * until the handler has ended and nobody is served by it.
 */
#include "libdoor.h"

#include <errno.h>
#include <limits.h>
#include <linux/futex.h>
#include <sys/syscall.h>
#include <unistd.h>

/*
 * Whose the wait of a slot is: of the thread that has the slot; lent; lent, and wanted back; or of nobody, since the thread to which it was
 * lent ends in a procedure, or has ended, and the kernel's thread with it.
 */
enum { OWN, LENT, WANTED, ENDING, ENDED };

static _Atomic uint32_t lease[WIRE_SLOTS];

static bool turn_over(uint32_t index, uint32_t from, uint32_t to)
{
	if (!atomic_compare_exchange_strong(&lease[index], &from, to))
		return false;
	(void)syscall(SYS_futex, &lease[index], FUTEX_WAKE, INT_MAX, NULL, NULL, 0);
	return true;
}

/* The end of a thread is soon over. */
static uint32_t lease_of(uint32_t index)
{
	uint32_t state;

	while ((state = atomic_load(&lease[index])) == ENDING)
		(void)futex_wait(&lease[index], ENDING, NULL);
	return state;
}

/* the thread whose wait it is */

static bool is_refused(const struct ask *ask)
{
	return atomic_load_explicit(&ask->slot->turn, memory_order_acquire) == WIRE_TOLD && ask->slot->reply.error != 0;
}

/* Whether it is this thread's again, with what has come meanwhile. All signals are kept off, so that no handler lends it in the middle. */
static bool have_back(struct ask *ask)
{
	uint32_t state = lease_of(ask->index);

	if (state != OWN && state != ENDED)
		return false;
	atomic_store(&lease[ask->index], OWN);
	ask->number = ask->request->number;
	ask->is_lent = false;
	if (state == ENDED)
		wait_anew(ask);
	return true;
}

/* Whether it is lent already, or not one for calls. All signals are kept off. */
static bool is_not_to_be_lent(struct ask *ask)
{
	if (ask->is_lent && (turn_over(ask->index, WANTED, LENT) || !have_back(ask)))
		return true;
	if (ask->request->op != KERNEL_OP_RETURN && ask->request->op != WIRE_WAIT)
		return true;
	release_in_wait(ask);
	return is_refused(ask);
}

/* A handler is to make a call: 0, or -1 and EAGAIN where no thread can be made. */
int lend_wait(void)
{
	static _Atomic int said;
	struct ask *ask = thread.ask;
	int error = 0;

	if (thread.at != AT_WAIT)
		return 0;
	uint64_t mask = set_mask(SIGNALS_ALL);
	if (!is_not_to_be_lent(ask)) {
		atomic_store(&lease[ask->index], LENT);
		error = make_heir(ask->index, mask, true);
		if (error != 0)
			atomic_store(&lease[ask->index], OWN);
		ask->is_lent = error == 0;
	}
	(void)set_mask(mask);
	if (error == 0)
		return 0;
	say_once(&said, "libdoor: EAGAIN: a handler's call needs a thread to wait in the place of its own, and none can be made");
	errno = EAGAIN;
	return -1;
}

/* The handler has ended: sleeps until the wait comes back, or until another handler has run. */
void take_wait_back(struct ask *ask)
{
	if (turn_over(ask->index, LENT, WANTED)) {
		uint32_t seen = WIRE_ASLEEP;
		atomic_compare_exchange_strong(&ask->slot->turn, &seen, WIRE_ASKED);
		rouse(ask->index);
	}
	uint64_t mask = set_mask(SIGNALS_ALL);
	bool is_back = have_back(ask);
	(void)set_mask(mask);
	if (!is_back)
		(void)futex_wait(&lease[ask->index], WANTED, NULL);
}

/* The thread will not come back. Whether there is somebody who has its wait, or nothing to wait for. */
bool leave_wait_lent(uint32_t index)
{
	if (turn_over(index, LENT, OWN) || turn_over(index, WANTED, OWN))
		return true;
	if (lease_of(index) != ENDED)
		return false;
	atomic_store(&lease[index], OWN);
	give_slot_back(index);
	return true;
}

/* the thread to which it is lent */

bool is_borrower(void)
{
	return thread.is_borrower && atomic_load(&lease[thread.index]) != OWN;
}

/* Only once doord has taken the results of a procedure, since where it refuses them the procedure is told. */
bool is_wait_wanted(const struct ask *ask)
{
	return thread.is_borrower && thread.at == AT_WAIT && (!ask->sent || ask->request->op == WIRE_WAIT)
		&& atomic_load(&lease[thread.index]) == WANTED;
}

static bool give(uint32_t from)
{
	uint32_t index = thread.index;
	struct wire_slot *slot = thread.slot;

	/* from the moment that it is given it is another thread's */
	thread.slot = NULL;
	thread.has_given_back = true;
	if (turn_over(index, from, OWN))
		return true;
	thread.slot = slot;
	thread.has_given_back = false;
	return false;
}

bool give_wait_back(void)
{
	return thread.is_borrower && give(WANTED);
}

/* The wait has failed, of which the thread is to hear whose it is. */
bool give_failure_back(void)
{
	return thread.is_borrower && (give(LENT) || give(WANTED));
}

/* It ends in a procedure, and once it has asked for that the slot is another thread's, where it is lent. */
void begin_end(uint32_t index)
{
	if (!turn_over(index, LENT, ENDING))
		(void)turn_over(index, WANTED, ENDING);
}

bool is_end_of_lease(uint32_t index)
{
	return turn_over(index, ENDING, ENDED);
}

/* In a forked child there are no other threads. */
void forget_leases(void)
{
	for (uint32_t index = 0; index < WIRE_SLOTS; index++)
		atomic_store(&lease[index], OWN);
	thread.is_borrower = false;
}
