/* libdoor_servers.c: server threads, and door_server_create(3C). */
#include "libdoor.h"

#include <errno.h>
#include <pthread.h>

static void make_server(door_info_t *info);

static struct {
	door_server_func_t *_Atomic function;
	_Atomic uint32_t owed; /* threads that the kernel has started, and that are not made yet */
} own = { .function = make_server };

void owe_servers(uint32_t count)
{
	if (count > 0)
		atomic_fetch_add(&own.owed, count);
}

static void *serve(void *mask)
{
	thread.is_of_library = true;
	thread.mask = (uintptr_t)mask;
	(void)pthread_setcancelstate(PTHREAD_CANCEL_DISABLE, NULL);
	(void)door_return(NULL, 0, NULL, 0);
	return NULL;
}

/* A detached thread that begins with all signals kept off. 0, or an error. */
int make_own_thread(void *(*body)(void *), void *argument)
{
	pthread_attr_t attributes;
	pthread_t made;
	int error = pthread_attr_init(&attributes);

	if (error != 0)
		return error;
	(void)pthread_attr_setdetachstate(&attributes, PTHREAD_CREATE_DETACHED);
	uint64_t mask = set_mask(SIGNALS_ALL);
	error = pthread_create(&made, &attributes, body, argument);
	(void)set_mask(mask);
	(void)pthread_attr_destroy(&attributes);
	return error;
}

/* The mask of signals that the program has here. */
static uint64_t program_mask(void)
{
	if (thread.is_of_library && !thread.is_unmasked)
		return thread.mask;
	uint64_t mask = set_mask(SIGNALS_ALL);
	(void)set_mask(mask);
	return mask;
}

/* What makes server threads by default, as door_server_create(3C) says: none for a private door. */
static void make_server(door_info_t *info)
{
	if (!info && make_own_thread(serve, (void *)(uintptr_t)program_mask()) != 0)
		owe_servers(1);
}

/* The program's function runs with the program's mask, which the threads inherit that it makes. */
void make_server_for(door_info_t *info)
{
	door_server_func_t *function = atomic_load(&own.function);
	bool is_masked = function != make_server && thread.is_of_library && !thread.is_unmasked;
	int error = errno;

	if (is_masked)
		(void)set_mask(thread.mask);
	function(info);
	if (is_masked)
		(void)set_mask(SIGNALS_ALL);
	errno = error;
}

/* What is owed is made, but not by a handler of signals, in which no thread can be made. */
void make_servers(void)
{
	if (atomic_load_explicit(&own.owed, memory_order_relaxed) == 0 || is_in_handler())
		return;
	for (uint32_t owed = atomic_exchange(&own.owed, 0); owed > 0; owed--)
		make_server_for(NULL);
}

bool has_own_servers(void)
{
	return atomic_load(&own.function) != make_server;
}

/* The last thread that waited for calls of this private door was taken, by this thread: the program's function may make another. */
void pool_is_empty(uint32_t number)
{
	struct own_door *door = own_door(number);
	door_info_t info;

	if (!door || !has_own_servers())
		return;
	if (atomic_load(&door->has_info))
		info = door->info;
	else if (door_info(DOOR_QUERY, &info) < 0)
		return;
	make_server_for(&info);
}

/* door_server_create(3C); NULL is the function that there is by default. */
EXPORT door_server_func_t *door_server_create(door_server_func_t *function)
{
	return atomic_exchange(&own.function, function ? function : make_server);
}

/* In a forked child there are none, and none are owed. */
void forget_servers(void)
{
	atomic_store(&own.owed, 0);
}

/* Who takes the place of a thread that waited for calls: of a slot there is one at a time. */
struct heir {
	uint32_t index;
	uint64_t mask;
	bool is_borrower;
};

static void *inherit(void *argument)
{
	const struct heir *heir = argument;

	thread.is_of_library = true;
	thread.mask = heir->mask;
	thread.is_borrower = heir->is_borrower;
	(void)pthread_setcancelstate(PTHREAD_CANCEL_DISABLE, NULL);
	have_slot(heir->index);
	(void)serve_on();
	return NULL;
}

/* 0, or an error. A handler of signals may be where this is called, in a thread that waits. */
int make_heir(uint32_t index, uint64_t mask, bool is_borrower)
{
	static struct heir heirs[WIRE_SLOTS];

	heirs[index] = (struct heir){ index, mask, is_borrower };
	return make_own_thread(inherit, &heirs[index]);
}

/* A thread that waited for calls has ended, or jumped away, in a handler. The kernel's thread waits on, so another takes its place. */
void hand_wait_on(uint32_t index)
{
	uint32_t op = connection.area->slot[index].request.op;

	if (op == KERNEL_OP_RETURN || op == WIRE_WAIT)
		(void)make_heir(index, program_mask(), false);
}
