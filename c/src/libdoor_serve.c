/* libdoor_serve.c: door_return(3C), and the invocations of server procedures. */
#include "libdoor.h"

#include <errno.h>
#include <pthread.h>
#include <setjmp.h>
#include <stdalign.h>
#include <string.h>

/* What an invocation has. It lies in the frame of the thread's first door_return, to which each further one goes back. */
struct service {
	struct ask ask;
	struct came room, *came;
	door_desc_t desc[WIRE_PASSED];
	alignas(16) char data[WIRE_REPLY];
};

struct results {
	const char *data;
	size_t size;
	const door_desc_t *desc;
	uint_t count;
};

/* A thread that libdoor made waits with all signals kept off, so that they go to the program's own. */
static void keep_signals_off(void)
{
	if (!thread.is_unmasked)
		return;
	thread.is_unmasked = false;
	thread.mask = set_mask(SIGNALS_ALL);
}

void let_signals_in(void)
{
	if (!thread.is_of_library || thread.is_unmasked || (~thread.mask & SIGNALS_ALL) == 0)
		return;
	thread.is_unmasked = true;
	(void)set_mask(thread.mask);
}

/* The next invocation is there, or there is none: -1 and errno. */
static int see_answer(struct ask *ask)
{
	int error = (int)ask->reply->error;

	if (error == 0)
		return 0;
	end_ask(ask);
	let_signals_in();
	errno = error;
	return -1;
}

/* Hands results over, and waits for the next invocation. */
static int hand_over(struct service *service, const struct results *results)
{
	struct ask *ask = &service->ask;
	struct sent sent;

	keep_signals_off();
	if (begin_ask(ask, KERNEL_OP_RETURN) < 0) {
		let_signals_in();
		return -1;
	}
	if (is_borrower())
		ask->request->flags |= WIRE_TELLS_TAKEN;
	if (put_message(ask, &sent, results->data, results->size, results->desc, results->count) < 0) {
		give_up_ask(ask);
		let_signals_in();
		return -1;
	}
	return wait_answer(ask, AT_WAIT) < 0 ? -1 : see_answer(ask);
}

/* Goes on with the wait of a thread that has ended, by whose slot this thread asks now. */
static int take_wait_over(struct service *service)
{
	resume_ask(&service->ask);
	if (wait_on(&service->ask, AT_WAIT) < 0)
		return -1;
	if (service->ask.reply->error != 0 && give_failure_back()) {
		set_at(AT_PROGRAM);
		return -1;
	}
	return see_answer(&service->ask);
}

/* Descriptors for what came; the client waits for its results, so the procedure runs also where one has no room, without it. */
static bool place_arguments(struct service *service)
{
	static _Atomic int said;

	if (place_came(service->came, service->desc) == 0)
		return true;
	say_once(&said, "libdoor: EMFILE: no descriptors are free for those that came with a call");
	return false;
}

/* The bytes of an invocation: NULL where there is no room for them. */
static char *place_bytes(struct service *service, size_t *size)
{
	static _Atomic int said;
	struct came *came = service->came;

	forget_argument();
	if (!came->is_beside)
		return service->data;
	char *data = take_argument(came->beside, size);
	came->beside = -1;
	if (!data)
		say_once(&said, "libdoor: EMFILE: there is no room for the bytes of a call: it ends with EINTR");
	return data;
}

static void invoke(struct service *service)
{
	if (thread.has_given_back)
		return;
	const struct wire_reply *reply = service->ask.reply;
	uint32_t kind = reply->kind, number = reply->b, flags = reply->flags, request = service->ask.number;
	size_t size = reply->data_size;

	memcpy(service->data, reply->data, size);
	service->came = take_came(&service->ask, &service->room);
	char *data = place_bytes(service, &size);
	bool has_all = data && place_arguments(service);
	unsigned count = has_all ? service->came->count : 0;
	/* from here on handlers run, which may jump away from what is not the program's yet */
	end_ask(&service->ask);
	if (!has_all)
		drop_came(service->came);
	const struct own_door *door = own_door(number);
	bool is_invocation = kind == KERNEL_ANSWER_ENTERED || kind == KERNEL_ANSWER_NOTICE;
	if (!is_invocation || !door || !atomic_load_explicit(&door->is_there, memory_order_acquire))
		return;
	if (flags & WIRE_POOL)
		pool_is_empty(number);
	if (!data)
		return;
	let_signals_in();
	begin_service(request);
	if (has_all)
		forget_came(service->came);
	if (kind == KERNEL_ANSWER_NOTICE)
		door->procedure(door->cookie, DOOR_UNREF_DATA, 0, NULL, 0);
	else
		door->procedure(door->cookie, size > 0 ? data : NULL, size, count > 0 ? service->desc : NULL, count);
}

/*
 * The place to which the thread comes back for each invocation. Without results it takes a wait over. It comes back with -1 where there is
 * no first invocation; a thread that has given its wait back ends; a procedure that comes to its end without door_return(3C) ends its thread, and its client is told EINTR.
 */
static int serve_here(struct service *service, const struct results *results)
{
	thread.service = service;
	if (_setjmp(thread.place) == 0) {
		if ((results ? hand_over(service, results) : take_wait_over(service)) < 0) {
			thread.service = NULL;
			return -1;
		}
	}
	invoke(thread.service);
	pthread_exit(NULL);
}

int serve_on(void)
{
	struct service service;

	return serve_here(&service, NULL);
}

/* Whether the thread's place is there: it is not where the program has jumped out of the frame that had it. */
static bool has_place(void)
{
	uintptr_t here = (uintptr_t)__builtin_frame_address(0);
	bool is_elsewhere = is_in_handler() && is_on_stack_of_handlers(here);

	return thread.service && (is_elsewhere || here < (uintptr_t)thread.service);
}

/* The procedure's invocation is over. A thread that was cancelled, since its client has left, ends here at the latest. */
static enum at_service leave_service(void)
{
	enum at_service at = end_service();

	if (at == SERVICE_TOLD)
		pthread_testcancel();
	return at;
}

/* door_return(3C) comes back only where it failed. */
EXPORT int door_return(char *data, size_t size, door_desc_t *desc, uint_t count)
{
	const struct results results = { data, size, desc, count };
	struct service service;

	if (!is_in_program()) {
		/* a handler of signals, in a thread that waits already */
		errno = EINVAL;
		return -1;
	}
	enum at_service at = leave_service();
	if (!has_place())
		(void)serve_here(&service, &results);
	else if (hand_over(thread.service, &results) == 0 || thread.has_given_back)
		_longjmp(thread.place, 1);
	int error = errno;
	resume_service(at);
	errno = error;
	return -1;
}
