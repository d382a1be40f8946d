/*
 * libdoor_cancel.c: a thread that runs a procedure is cancelled when its client leaves the call, as by
 * pthread_cancel(3). doord writes into the thread's slot that the client has left. One that has cancellation enabled is
 * then cancelled by the watcher, a thread of the library, since it may wait anywhere; one that has it disabled cancels
 * itself when it enables it, in the same invocation. The watcher is made for the first thread that runs a procedure with
 * cancellation enabled, so most programs have none.
 */
#include "libdoor.h"

#include <errno.h>
#include <limits.h>
#include <linux/futex.h>
#include <pthread.h>
#include <sys/syscall.h>
#include <unistd.h>

/* nobody: the slot's thread runs no procedure; telling: the watcher is cancelling it, and it waits for the end of that */
enum { NOBODY, SERVES, TELLING, TOLD };

/* The thread of a slot that runs a procedure. */
struct server {
	_Atomic uint32_t state;
	_Atomic uint32_t invocation; /* the number of the request by which it came */
	_Atomic bool is_enabled;     /* its cancellation */
	pthread_t thread;
};

static struct {
	struct server server[WIRE_SLOTS];
	_Atomic bool has_watcher;
} own;

static void wake(_Atomic uint32_t *word)
{
	(void)syscall(SYS_futex, word, FUTEX_WAKE, INT_MAX, NULL, NULL, 0);
}

static bool has_left(uint32_t index)
{
	return atomic_load(&connection.area->slot[index].left) == atomic_load(&own.server[index].invocation);
}

/* Whether the invocation of this slot's thread is one to end. */
static bool is_to_end(uint32_t index)
{
	return has_left(index) && atomic_load(&own.server[index].is_enabled);
}

/* the watcher */

static void tell(uint32_t index)
{
	struct server *server = &own.server[index];
	uint32_t seen = SERVES;

	if (!is_to_end(index) || !atomic_compare_exchange_strong(&server->state, &seen, TELLING))
		return;
	/* it could have been another invocation by then; from here on it is the same */
	bool tells = is_to_end(index);
	if (tells)
		(void)pthread_cancel(server->thread);
	atomic_store(&server->state, tells ? TOLD : SERVES);
	wake(&server->state);
}

/* It ends when no other thread is there that uses doors, so that it keeps no process from its end. */
static bool may_end(void)
{
	if (is_any_slot_taken())
		return false;
	atomic_store(&own.has_watcher, false);
	return !is_any_slot_taken() || atomic_exchange(&own.has_watcher, true);
}

static void *watch(void *unused)
{
	struct wire_area *area = connection.area;

	for (;;) {
		uint32_t seen = atomic_load(&area->leavers);
		for (uint32_t index = 0; index < WIRE_SLOTS; index++)
			tell(index);
		if (may_end())
			return unused;
		(void)futex_wait(&area->leavers, seen, NULL);
	}
}

/* No thread can be made in a handler of signals: then the next one does. */
static void need_watcher(void)
{
	int state;

	if (atomic_load(&own.has_watcher) || is_in_handler() || atomic_exchange(&own.has_watcher, true))
		return;
	(void)real_setcancelstate(PTHREAD_CANCEL_DISABLE, &state);
	if (make_own_thread(watch, NULL) != 0)
		atomic_store(&own.has_watcher, false);
	(void)real_setcancelstate(state, NULL);
}

/* A slot is free again. */
void let_watcher_end(void)
{
	if (!atomic_load(&own.has_watcher) || is_any_slot_taken())
		return;
	atomic_fetch_add(&connection.area->leavers, 1);
	wake(&connection.area->leavers);
}

/* the thread itself */

static void see_whether_left(void)
{
	uint32_t seen = SERVES;

	if (!is_to_end(thread.index) || !atomic_compare_exchange_strong(&own.server[thread.index].state, &seen, TOLD))
		return;
	(void)pthread_cancel(pthread_self());
}

static void serve_as(enum at_service at)
{
	struct server *server = &own.server[thread.index];

	atomic_store(&server->is_enabled, !thread.is_cancel_disabled);
	atomic_store(&server->state, at == SERVICE_TOLD ? TOLD : SERVES);
	thread.is_serving = true;
	if (thread.is_cancel_disabled)
		return;
	need_watcher();
	see_whether_left();
}

/* A procedure is to run, in the invocation that was the answer to this request. */
void begin_service(uint32_t number)
{
	struct server *server = &own.server[thread.index];

	server->thread = pthread_self();
	atomic_store(&server->invocation, number);
	serve_as(SERVICE_GOES_ON);
}

/* The invocation is over. */
enum at_service end_service(void)
{
	_Atomic uint32_t *state = &own.server[thread.index].state;
	uint32_t seen;

	if (!thread.is_serving)
		return SERVICE_NONE;
	do {
		while ((seen = atomic_load(state)) == TELLING)
			(void)futex_wait(state, TELLING, NULL);
	} while (!atomic_compare_exchange_strong(state, &seen, NOBODY));
	thread.is_serving = false;
	return seen == TOLD ? SERVICE_TOLD : SERVICE_GOES_ON;
}

/* door_return(3C) failed: it is not over after all. */
void resume_service(enum at_service at)
{
	if (at != SERVICE_NONE)
		serve_as(at);
}

/* In a forked child: it serves nobody. */
void forget_service(void)
{
	for (uint32_t index = 0; index < WIRE_SLOTS; index++)
		atomic_store(&own.server[index].state, NOBODY);
	atomic_store(&own.has_watcher, false);
	thread.is_serving = false;
}

static void disable(void)
{
	_Atomic uint32_t *state = &own.server[thread.index].state;

	thread.is_cancel_disabled = true;
	if (!thread.is_serving)
		return;
	atomic_store(&own.server[thread.index].is_enabled, false);
	while (atomic_load(state) == TELLING)
		(void)futex_wait(state, TELLING, NULL);
}

static void enable(void)
{
	thread.is_cancel_disabled = false;
	if (!thread.is_serving)
		return;
	atomic_store(&own.server[thread.index].is_enabled, true);
	need_watcher();
	see_whether_left();
}

EXPORT int pthread_setcancelstate(int state, int *old)
{
	if (state == PTHREAD_CANCEL_DISABLE)
		disable();
	int error = real_setcancelstate(state, old);
	if (error == 0 && state == PTHREAD_CANCEL_ENABLE)
		enable();
	return error;
}
