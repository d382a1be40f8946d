/* libdoor_threads.c: threads, and the slots by which they ask. */
#include "libdoor.h"

#include <errno.h>
#include <pthread.h>
#include <stdlib.h>
#include <string.h>

__thread struct thread thread;

static struct {
	bool has_key;
	pthread_key_t key;
	_Atomic uint64_t taken[WIRE_SLOT_WORDS]; /* a bit for each slot */
	_Atomic int program; /* threads with a slot that are not the library's */
} own;

/* A free slot, or -1 and errno: more threads of one process ask at a time than there are slots. */
static int find_slot(void)
{
	static _Atomic int said;

	for (unsigned word = 0; word < WIRE_SLOT_WORDS; word++) {
		uint64_t taken = atomic_load(&own.taken[word]);
		while (~taken != 0) {
			int bit = __builtin_ctzll(~taken);
			if (atomic_compare_exchange_weak(&own.taken[word], &taken, taken | 1ull << bit))
				return (int)word * 64 + bit;
		}
	}
	say_once(&said, "libdoor: EAGAIN: at most 128 threads of a program use doors at once");
	errno = EAGAIN;
	return -1;
}

void give_slot_back(uint32_t index)
{
	atomic_fetch_and(&own.taken[index / 64], ~(1ull << index % 64));
}

bool is_any_slot_taken(void)
{
	for (unsigned word = 0; word < WIRE_SLOT_WORDS; word++)
		if (atomic_load(&own.taken[word]) != 0)
			return true;
	return false;
}

/* A slot for one request of a handler, whose thread is at a request of its own. */
struct wire_slot *borrow_slot(uint32_t *index)
{
	int free = find_slot();

	if (free < 0)
		return NULL;
	*index = (uint32_t)free;
	return &connection.area->slot[free];
}

/* The thread's own slot, from its first request until it ends. */
int take_slot(void)
{
	int free = find_slot();

	if (free < 0)
		return -1;
	if (pthread_setspecific(own.key, &thread) != 0) {
		give_slot_back((uint32_t)free);
		errno = EAGAIN;
		return -1;
	}
	thread.index = (uint32_t)free;
	thread.generation = atomic_load(&connection.generation);
	thread.slot = &connection.area->slot[free];
	if (!thread.is_of_library)
		atomic_fetch_add(&own.program, 1);
	return 0;
}

/* This slot, whose thread has ended, is now this thread's. */
void have_slot(uint32_t index)
{
	(void)pthread_setspecific(own.key, &thread);
	thread.index = index;
	thread.generation = atomic_load(&connection.generation);
	thread.slot = &connection.area->slot[index];
}

/* Whether a thread of the program's own is there that may take signals, as far as threads have asked for anything. */
bool is_program_there(void)
{
	return atomic_load_explicit(&own.program, memory_order_relaxed) > 0;
}

/* The last of them ends: those of the library look up, and take signals from now on. */
static void program_leaves(void)
{
	if (thread.is_of_library || atomic_fetch_sub(&own.program, 1) != 1)
		return;
	for (uint32_t index = 0; index < WIRE_SLOTS; index++)
		if (atomic_load(&own.taken[index / 64]) & 1ull << index % 64)
			rouse(index);
}

/*
 * A request that nobody will come back to: its thread was cancelled in it, at any moment, and what it had on its stack is gone. It may be
 * one that doord has not heard of yet.
 */
static void leave_request(void)
{
	uint32_t turn = atomic_load(&thread.slot->turn);
	struct ask ask;
	struct kept kept;

	if (turn == WIRE_ASKED || turn == WIRE_ASLEEP) {
		resume_ask(&ask);
		ask.kept = &kept;
		end_call_for_handler(&ask);
	}
	thread.ask = NULL;
	set_at(AT_PROGRAM);
}

/* The thread leaves a wait for another thread to come back to. */
static void leave_wait(void)
{
	set_at(AT_PROGRAM);
	thread.slot = NULL;
	thread.service = NULL;
	if (!leave_wait_lent(thread.index))
		hand_wait_on(thread.index);
	program_leaves();
}

/* Whether the thread is in the program. It is also where a handler has jumped out of the wait that it had interrupted. */
bool is_in_program(void)
{
	if (thread.at == AT_WAIT && thread.handler != 0 && !is_in_handler())
		leave_wait();
	return thread.at == AT_PROGRAM;
}

/* The end of a thread: its slot, and the kernel's thread behind it, are free for another. */
static void leave(void *unused)
{
	struct ask ask;

	(void)unused;
	thread.service = NULL;
	forget_argument();
	if (!thread.slot || thread.generation != atomic_load(&connection.generation))
		return;
	if (thread.at == AT_WAIT) {
		leave_wait();
		drop_given(true);
		return;
	}
	(void)end_service();
	leave_request();
	drop_given(true);
	begin_end(thread.index);
	if (begin_ask(&ask, WIRE_LEAVE) == 0)
		(void)ask_simply(&ask);
	uint32_t index = thread.index;
	thread.slot = NULL;
	if (!is_end_of_lease(index))
		give_slot_back(index);
	program_leaves();
	let_watcher_end();
}

int make_thread_key(void)
{
	if (own.has_key)
		return 0;
	int error = pthread_key_create(&own.key, leave);
	if (error != 0) {
		errno = error;
		return -1;
	}
	own.has_key = true;
	return 0;
}

/* In a forked child: this thread is the only one, and has asked nothing yet. */
void forget_threads(void)
{
	for (unsigned word = 0; word < WIRE_SLOT_WORDS; word++)
		atomic_store(&own.taken[word], 0);
	atomic_store(&own.program, 0);
	forget_leases();
	thread.slot = NULL;
	thread.ask = NULL;
	set_at(AT_PROGRAM);
	forget_given();
}

bool is_on_stack_of_handlers(uintptr_t address)
{
	return address >= thread.stack && address < thread.stack_end;
}

/* One that was left by a jump left its frame behind: what runs then lies further up the stack, or not on that of handlers any more. */
static bool is_left(uintptr_t handler, uintptr_t here)
{
	bool has_own = is_on_stack_of_handlers(handler), is_there = is_on_stack_of_handlers(here);

	return has_own == is_there ? here > handler : has_own;
}

/* Whether the handler of this frame was left. */
bool is_frame_left(uintptr_t frame)
{
	return is_left(frame, (uintptr_t)__builtin_frame_address(0));
}

/* Whether the thread runs a handler of signals now. */
bool is_in_handler(void)
{
	if (thread.handler != 0 && is_left(thread.handler, (uintptr_t)__builtin_frame_address(0)))
		thread.handler = 0;
	return thread.handler != 0;
}
