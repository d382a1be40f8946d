/*
 * libdoor_ask.c: a request and its answer. On the way of a call without descriptors no lock and no memory is taken, and there are two system
 * calls here: one that rings, and one that sleeps.
 */
#include "libdoor.h"

#include <errno.h>
#include <linux/futex.h>
#include <string.h>
#include <sys/syscall.h>
#include <unistd.h>

/* The thread is in the program again; a handler that was put off runs now. */
static void leave_request(void)
{
	set_at(AT_PROGRAM);
	if (thread.put_off)
		run_put_off();
}

static int enter_request(struct ask *ask)
{
	if (thread.at != AT_PROGRAM && !is_in_program()) {
		/* a handler, in a thread that is at a request */
		ask->slot = borrow_slot(&ask->index);
		ask->is_borrowed = true;
		return ask->slot ? 0 : -1;
	}
	set_at(AT_REQUEST);
	if (!thread.slot && take_slot() < 0) {
		int error = errno;
		leave_request();
		errno = error;
		return -1;
	}
	ask->slot = thread.slot;
	ask->index = thread.index;
	ask->is_borrowed = false;
	return 0;
}

static void put_request(struct ask *ask, uint32_t op)
{
	struct wire_request *request = ask->request;

	/* 0 is no number, since it stands in a page that is new */
	if (++request->number == 0)
		request->number = 1;
	request->op = op;
	request->flags = ask->is_borrowed ? WIRE_KEEPER : 0;
	request->a = request->b = 0;
	request->data_size = request->items = request->files = 0;
	request->c = request->d = 0;
	ask->number = request->number;
}

static void prepare(struct ask *ask)
{
	ask->generation = atomic_load_explicit(&connection.generation, memory_order_relaxed);
	ask->request = &ask->slot->request;
	ask->reply = &ask->slot->reply;
	ask->sent = NULL;
	ask->kept = NULL;
	ask->is_kept = false;
	ask->end = NULL;
	ask->is_late = false;
	ask->is_lent = false;
}

/* Begins a request, whose operands the caller then puts in. */
int begin_ask(struct ask *ask, uint32_t op)
{
	if (!atomic_load_explicit(&connection.is_open, memory_order_acquire) && open_connection() < 0)
		return -1;
	if (!atomic_load_explicit(connection.mark, memory_order_relaxed))
		return refuse_child();
	if (thread.given)
		drop_given(false);
	if (enter_request(ask) < 0)
		return -1;
	prepare(ask);
	put_request(ask, op);
	return 0;
}

/* The request of a thread that has ended, by whose slot this thread asks now. It is still waited for. */
void resume_ask(struct ask *ask)
{
	ask->slot = thread.slot;
	ask->index = thread.index;
	ask->is_borrowed = false;
	prepare(ask);
	ask->number = ask->request->number;
}

/* Nothing is asked after all. */
void give_up_ask(struct ask *ask)
{
	int error = errno;

	if (ask->is_borrowed)
		give_slot_back(ask->index);
	else
		leave_request();
	errno = error;
}

static void ring(uint32_t index)
{
	uint64_t one = 1;

	atomic_fetch_or_explicit(&connection.area->asked[index / 64], 1ull << index % 64, memory_order_release);
	while (syscall(SYS_write, atomic_load_explicit(&connection.bell, memory_order_relaxed), &one, sizeof one) < 0 && errno != EAGAIN)
		if (errno != EINTR)
			broker_is_gone();
}

static void post(struct ask *ask)
{
	atomic_store_explicit(&ask->slot->turn, WIRE_ASKED, memory_order_release);
	ring(ask->index);
}

static bool is_of_this_process(const struct ask *ask)
{
	return ask->generation == atomic_load_explicit(&connection.generation, memory_order_relaxed);
}

/* A thread that sleeps on this slot looks up. */
void rouse(uint32_t index)
{
	(void)syscall(SYS_futex, &connection.area->slot[index].turn, FUTEX_WAKE, 1, NULL, NULL, 0);
}

/* An alarm may end a wait that nobody else ends, and the system tells it to the program alone: so doord is told. */
static void tell_of_alarm(struct wire_slot *slot)
{
	tell_alarm();
	atomic_store(&slot->looked, slot->request.number);
}

/* The time of the wait is over: it is ended in the kernel, unless what it waits for comes before. */
static void end_late(struct ask *ask)
{
	ask->is_late = true;
	atomic_store(&ask->slot->interrupted, ask->number);
	ring(ask->index);
}

/* How long to sleep: a second at most, and no longer than the wait may last. */
static struct timespec time_to_sleep(struct ask *ask)
{
	const struct timespec second = { .tv_sec = 1 }, none = { 0 };
	struct timespec left;

	if (!ask->end || ask->is_late)
		return second;
	(void)clock_gettime(CLOCK_MONOTONIC, &left);
	left.tv_sec = ask->end->tv_sec - left.tv_sec;
	left.tv_nsec = ask->end->tv_nsec - left.tv_nsec;
	if (left.tv_nsec < 0) {
		left.tv_sec--;
		left.tv_nsec += 1000000000;
	}
	return left.tv_sec < 0 ? none : left.tv_sec > 0 ? second : left;
}

/* Sleeps a while at most. */
static void sleep_on(struct ask *ask)
{
	struct wire_slot *slot = ask->slot;
	const struct timespec most = time_to_sleep(ask);
	uint32_t seen = WIRE_ASKED;

	if (most.tv_sec == 0 && most.tv_nsec == 0) {
		end_late(ask);
		return;
	}

	/* its procedures have been let in before, and nobody else takes them now */
	if (thread.at == AT_WAIT && !is_borrower() && !is_program_there())
		let_signals_in();
	atomic_compare_exchange_strong(&slot->turn, &seen, WIRE_ASLEEP);
	if (seen != WIRE_TOLD && !is_wait_wanted(ask) && futex_wait(&slot->turn, WIRE_ASLEEP, &most) == ETIMEDOUT && most.tv_sec > 0) {
		look_for_broker();
		tell_of_alarm(slot);
	}
}

static bool is_told(const struct ask *ask)
{
	return !ask->is_lent && atomic_load_explicit(&ask->slot->turn, memory_order_acquire) == WIRE_TOLD;
}

/*
 * Sleeps until the answer is there, or until a handler has taken it, or has made this process another one by fork(2), or until the thread
 * whose wait it is wants it back.
 */
static void sleep_until_told(struct ask *ask)
{
	while (!ask->is_kept && is_of_this_process(ask) && !is_wait_wanted(ask) && !is_told(ask)) {
		if (ask->is_lent)
			take_wait_back(ask);
		else
			sleep_on(ask);
	}
}

static void see_that_it_fits(const struct ask *ask)
{
	const struct wire_reply *reply = ask->reply;

	if (reply->number == ask->number && reply->data_size <= WIRE_REPLY && reply->passed <= WIRE_PASSED
		&& reply->files <= WIRE_REPLY_FILES)
		return;
	say("libdoor: doord's answer is not one to the question");
	_exit(LIBDOOR_NO_BROKER);
}

/* Whether this is not the end yet: the message has gone, what it released is closed, and then its end is asked for. */
static bool goes_on(struct ask *ask)
{
	see_that_it_fits(ask);
	if (!(ask->reply->flags & WIRE_TAKEN))
		return false;
	if (ask->sent)
		release_sent(ask->sent);
	if (ask->reply->kind != KERNEL_ANSWER_WAIT && ask->reply->kind != KERNEL_ANSWER_WAIT_CALL)
		return false;
	owe_servers(ask->reply->spawn);
	put_request(ask, WIRE_WAIT);
	return true;
}

/*
 * Waits as `at` says for what was asked. -1 and EINTR where a handler has forked, and this is its child, or where the wait was given back:
 * then the request is over. Else the answer is ask->reply until end_ask.
 */
int wait_on(struct ask *ask, enum at at)
{
	for (;;) {
		if (!ask->is_borrowed && at != AT_REQUEST) {
			thread.ask = ask;
			set_at(at);
			if (thread.put_off)
				run_put_off();
		}
		sleep_until_told(ask);
		bool is_given_back = is_wait_wanted(ask) && give_wait_back();
		if (!ask->is_borrowed)
			set_at(AT_REQUEST);
		if (!is_of_this_process(ask) || is_given_back) {
			if (!ask->is_borrowed)
				leave_request();
			errno = EINTR;
			return -1;
		}
		if (ask->is_kept) {
			ask->reply = &ask->kept->reply;
			return 0;
		}
		/* the answer may have been that of a thread to which a handler has just lent the wait */
		if (!is_told(ask))
			continue;
		if (!goes_on(ask))
			return 0;
		post(ask);
	}
}

int wait_answer(struct ask *ask, enum at at)
{
	post(ask);
	return wait_on(ask, at);
}

/*
 * A handler is to run in the thread that waits for this call, and all signals are kept off: the wait is ended in the kernel, and its answer
 * kept, so that the handler may use the thread's slot.
 */
void end_call_for_handler(struct ask *ask)
{
	bool again;

	do {
		if (atomic_load(&ask->slot->turn) != WIRE_TOLD) {
			atomic_store(&ask->slot->interrupted, ask->number);
			ring(ask->index);
		}
		sleep_until_told(ask);
		again = goes_on(ask);
		if (again)
			post(ask);
	} while (again);
	const struct wire_reply *reply = &ask->slot->reply;
	memcpy(&ask->kept->reply, reply, offsetof(struct wire_reply, data) + reply->data_size);
	ask->kept->came = take_came(ask, &ask->kept->room);
	atomic_store_explicit(&ask->slot->turn, WIRE_MINE, memory_order_relaxed);
	ask->is_kept = true;
}

/* In a wait: what is released with the results of a procedure, where something is. */
void release_in_wait(struct ask *ask)
{
	bool is_any = false;

	for (unsigned i = 0; ask->sent && i < ask->sent->count; i++)
		is_any = is_any || ask->sent->is_released[i];
	if (!is_any || ask->request->op != KERNEL_OP_RETURN)
		return;
	sleep_until_told(ask);
	if (goes_on(ask))
		post(ask);
}

/* In a wait: the kernel's thread that waited has ended, and another one does. */
void wait_anew(struct ask *ask)
{
	ask->sent = NULL;
	put_request(ask, KERNEL_OP_RETURN);
	post(ask);
}

/* A handler's call took a thread of the kernel, which is not needed any more. */
static void leave_borrowed(struct ask *ask)
{
	uint32_t op = ask->request->op;

	if (op == KERNEL_OP_CALL || op == KERNEL_OP_AWAIT || op == WIRE_WAIT || op == KERNEL_OP_GET || op == KERNEL_OP_GET_MANY) {
		put_request(ask, WIRE_LEAVE);
		post(ask);
		sleep_until_told(ask);
		atomic_store_explicit(&ask->slot->turn, WIRE_MINE, memory_order_relaxed);
	}
	give_slot_back(ask->index);
}

/* What was needed of the answer is taken. */
void end_ask(struct ask *ask)
{
	uint32_t spawn = ask->reply->spawn;

	if (!ask->is_kept)
		atomic_store_explicit(&ask->slot->turn, WIRE_MINE, memory_order_relaxed);
	if (ask->is_borrowed)
		leave_borrowed(ask);
	else
		leave_request();
	if (spawn > 0)
		owe_servers(spawn);
	make_servers();
}

/* A request that is answered at once by a few numbers, which then stand in it: 0, or -1 and errno. */
int ask_simply(struct ask *ask)
{
	if (wait_answer(ask, AT_REQUEST) < 0)
		return -1;
	int error = (int)ask->reply->error;
	ask->a = ask->reply->a;
	ask->b = ask->reply->b;
	ask->c = ask->reply->c;
	ask->d = ask->reply->d;
	ask->e = ask->reply->e;
	end_ask(ask);
	if (error != 0)
		errno = error;
	return error == 0 ? 0 : -1;
}

int ask_about(uint32_t op, uint32_t a)
{
	struct ask ask;

	if (begin_ask(&ask, op) < 0)
		return -1;
	ask.request->a = a;
	return ask_simply(&ask);
}

int ask_about_descriptor(uint32_t op, const struct stand_in *it)
{
	struct ask ask;

	if (begin_ask(&ask, op) < 0)
		return -1;
	name_descriptor(ask.request, it);
	return ask_simply(&ask);
}
