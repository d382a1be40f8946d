/*
 * libdoor_signals.c: handlers of signals. Each handler of a process that is connected is wrapped, so that it finds its thread where it may
 * call everything:
 *   in the program, it runs;
 *   at a request, it is put off until the request is over, which is soon;
 *   in the wait of door_call(3C), that wait is ended first, and the call answers EINTR after it, or its results where they had come;
 *   in another wait, it runs, and the wait goes on. What it asks is asked by another slot.
 */
#include "libdoor.h"

#include <errno.h>
#include <string.h>
#include <sys/syscall.h>
#include <ucontext.h>
#include <unistd.h>

enum { SIGNALS = 65 };

/* What the program has set for a signal. A handler may look while another thread writes: then the version is odd, or another one after. */
struct entry {
	_Atomic uint32_t version;
	_Atomic uintptr_t handler;
	_Atomic int flags;
	_Atomic uint64_t mask;
};

struct action {
	uintptr_t handler;
	int flags;
	uint64_t mask;
};

static struct {
	_Atomic bool wraps;
	struct entry entry[SIGNALS];
} own;

static struct action read_entry(int number)
{
	struct entry *entry = &own.entry[number];
	struct action action;
	uint32_t version;

	do {
		version = atomic_load(&entry->version);
		action.handler = atomic_load(&entry->handler);
		action.flags = atomic_load(&entry->flags);
		action.mask = atomic_load(&entry->mask);
	} while (version % 2 != 0 || version != atomic_load(&entry->version));
	return action;
}

static void write_entry(int number, const struct action *action)
{
	struct entry *entry = &own.entry[number];

	atomic_fetch_add(&entry->version, 1);
	atomic_store(&entry->handler, action->handler);
	atomic_store(&entry->flags, action->flags);
	atomic_store(&entry->mask, action->mask);
	atomic_fetch_add(&entry->version, 1);
}

/* putting off */

static bool is_fault(int number, const siginfo_t *info)
{
	return (SIGNAL_BIT(number) & SIGNALS_OF_FAULTS) && info->si_code > 0;
}

/* Its handler runs when the request is over. Until then all other signals wait in the system, so there is never more than one. */
static void put_off(int number, const siginfo_t *info, ucontext_t *interrupted)
{
	uint64_t mask;

	memcpy(&mask, &interrupted->uc_sigmask, sizeof mask);
	thread.signal = *info;
	thread.mask_put_off = mask;
	mask |= SIGNALS_ALL & ~SIGNALS_OF_FAULTS;
	memcpy(&interrupted->uc_sigmask, &mask, sizeof mask);
	atomic_signal_fence(memory_order_seq_cst);
	thread.put_off = number;
}

/* Once more to this thread, with what came with it: the system then does what the program has set for it. */
static bool send_again(int number, const siginfo_t *info)
{
	return syscall(SYS_rt_tgsigqueueinfo, getpid(), (pid_t)syscall(SYS_gettid), number, info) == 0;
}

/* One is put off already, and this one, sent by kill(2), is such that a fault makes too, which are let in: it waits in the system. */
static void put_back(int number, const siginfo_t *info, ucontext_t *interrupted)
{
	uint64_t mask;

	memcpy(&mask, &interrupted->uc_sigmask, sizeof mask);
	mask |= SIGNAL_BIT(number);
	memcpy(&interrupted->uc_sigmask, &mask, sizeof mask);
	(void)send_again(number, info);
}

/* running */

static void call_handler(const struct action *action, int number, siginfo_t *info, void *context)
{
	union {
		uintptr_t address;
		void (*plain)(int);
		void (*with_info)(int, siginfo_t *, void *);
	} handler = { .address = action->handler };

	if (action->flags & SA_SIGINFO)
		handler.with_info(number, info, context);
	else
		handler.plain(number);
}

/* Where it runs, so that is_in_handler can tell. */
static void begin_handler(const ucontext_t *interrupted)
{
	thread.stack = (uintptr_t)interrupted->uc_stack.ss_sp;
	thread.stack_end = thread.stack + interrupted->uc_stack.ss_size;
	thread.handler = (uintptr_t)__builtin_frame_address(0);
}

/* The program's handler, with the mask that it asked for. */
static void run_handler(int number, siginfo_t *info, void *context)
{
	const struct action action = read_entry(number);
	bool is_outermost = !is_in_handler();
	uint64_t mask;

	if (action.handler == (uintptr_t)SIG_DFL || action.handler == (uintptr_t)SIG_IGN)
		return;
	memcpy(&mask, &((ucontext_t *)context)->uc_sigmask, sizeof mask);
	mask |= action.mask | (action.flags & SA_NODEFER ? 0 : SIGNAL_BIT(number));
	if (is_outermost)
		begin_handler(context);
	(void)set_mask(mask);
	call_handler(&action, number, info, context);
	if (is_outermost)
		thread.handler = 0;
}

/* It begins with all signals kept off. */
static void wrapper(int number, siginfo_t *info, void *context)
{
	enum at at = (enum at)thread.at;
	struct ask *ask = thread.ask;
	uint32_t generation = atomic_load(&connection.generation);
	int error = errno;

	if (at == AT_REQUEST && !is_fault(number, info)) {
		(thread.put_off ? put_back : put_off)(number, info, context);
		return;
	}
	if (at == AT_CALL && !ask->is_kept)
		end_call_for_handler(ask);
	struct given *given = begin_over_given((uintptr_t)__builtin_frame_address(0));
	if (at != AT_WAIT)
		set_at(AT_PROGRAM);
	errno = error;
	run_handler(number, info, context);
	end_over_given(given);
	/* where the handler has forked, the child's thread is at nothing any more */
	if (generation == atomic_load(&connection.generation)) {
		thread.ask = ask;
		set_at(at);
	}
}

/* What a handler sees of the machine that was put off: where it runs from. */
static void look_around(ucontext_t *context, uint64_t mask)
{
	(void)getcontext(context);
	memset(&context->uc_stack, 0, sizeof context->uc_stack);
	memcpy(&context->uc_sigmask, &mask, sizeof mask);
}

/*
 * Whether its handler has asked for a stack, to which only the system changes. Those from SIGRTMIN on would lose their order, and one with
 * SA_RESETHAND is not set any more.
 */
static bool wants_stack(int number)
{
	return (read_entry(number).flags & (int)(SA_ONSTACK | SA_RESETHAND)) == SA_ONSTACK && number < SIGRTMIN;
}

/* It runs from here, before any that waits in the system, so that those of one number come in their order. */
void run_put_off(void)
{
	int number = thread.put_off, error = errno;
	siginfo_t info = thread.signal;
	ucontext_t context;
	uint64_t mask;

	(void)set_mask(SIGNALS_ALL);
	thread.put_off = 0;
	mask = thread.mask_put_off;
	if (!wants_stack(number) || !send_again(number, &info)) {
		look_around(&context, mask);
		wrapper(number, &info, &context);
		memcpy(&mask, &context.uc_sigmask, sizeof mask);
	}
	(void)set_mask(mask);
	errno = error;
}

/* setting */

static bool is_own(const struct sigaction *action)
{
	return action->sa_handler != SIG_DFL && action->sa_handler != SIG_IGN && action->sa_sigaction != wrapper;
}

static struct action action_of(const struct sigaction *given)
{
	struct action action = { .handler = (uintptr_t)given->sa_handler, .flags = given->sa_flags };

	memcpy(&action.mask, &given->sa_mask, sizeof action.mask);
	return action;
}

/* The program's action, as it would have been without a wrapper. */
static void unwrap(struct sigaction *given, const struct action *action)
{
	if (given->sa_sigaction != wrapper)
		return;
	given->sa_handler = (sighandler_t)action->handler;
	given->sa_flags = action->flags;
	sigemptyset(&given->sa_mask);
	memcpy(&given->sa_mask, &action->mask, sizeof action->mask);
}

/* Sets an action of the program's, by the wrapper where it has a handler. The lock is taken. */
static int set_action(int number, const struct sigaction *given, struct sigaction *old)
{
	const struct action before = read_entry(number), action = action_of(given);
	struct sigaction wrapped = *given;

	if (is_own(given)) {
		wrapped.sa_sigaction = wrapper;
		wrapped.sa_flags = (given->sa_flags | SA_SIGINFO) & ~(int)SA_NODEFER;
		sigfillset(&wrapped.sa_mask);
		write_entry(number, &action);
	}
	if (real_sigaction(number, &wrapped, old) < 0) {
		write_entry(number, &before);
		return -1;
	}
	if (old)
		unwrap(old, &before);
	return 0;
}

/* A handler that was set past the wrapper gets it. */
static void wrap(int number)
{
	struct sigaction now;

	if (real_sigaction(number, NULL, &now) == 0 && is_own(&now))
		(void)set_action(number, &now, NULL);
}

static void wrap_now(int number)
{
	int error = errno;
	uint64_t mask = take_lock();

	wrap(number);
	give_lock(mask);
	errno = error;
}

/* The process is connected: from now on its handlers are wrapped. The lock is taken. */
void wrap_handlers(void)
{
	if (atomic_exchange(&own.wraps, true))
		return;
	for (int number = 1; number < SIGNALS; number++)
		if (!(SIGNAL_BIT(number) & (SIGNALS_OF_THREADS | SIGNAL_BIT(SIGKILL) | SIGNAL_BIT(SIGSTOP))))
			wrap(number);
}

static bool is_signal(int number)
{
	return number > 0 && number < SIGNALS;
}

EXPORT int sigaction(int number, const struct sigaction *given, struct sigaction *old)
{
	struct sigaction action;
	int result;

	if (!is_signal(number) || !atomic_load(&own.wraps)) {
		result = real_sigaction(number, given, old);
		if (result == 0 && given && atomic_load(&own.wraps))
			wrap_now(number);
		return result;
	}
	if (given)
		action = *given;
	uint64_t mask = take_lock();
	if (given) {
		result = set_action(number, &action, old);
	} else {
		const struct action before = read_entry(number);
		result = real_sigaction(number, NULL, old);
		if (result == 0 && old)
			unwrap(old, &before);
	}
	int error = errno;
	give_lock(mask);
	errno = error;
	return result;
}

/* signal(3) and its kin: the system's own sets the handler, and then it is wrapped. */
static sighandler_t set_handler(enum real_signal which, int number, sighandler_t handler)
{
	if (!is_signal(number))
		return real_signal(which, number, handler);
	const struct action before = read_entry(number);
	union {
		void (*with_info)(int, siginfo_t *, void *);
		sighandler_t plain;
	} ours = { .with_info = wrapper };
	sighandler_t old = real_signal(which, number, handler);
	if (old != SIG_ERR && atomic_load(&own.wraps))
		wrap_now(number);
	return old == ours.plain ? (sighandler_t)before.handler : old;
}

EXPORT sighandler_t signal(int number, sighandler_t handler)
{
	return set_handler(REAL_SIGNAL, number, handler);
}

EXPORT sighandler_t bsd_signal(int number, sighandler_t handler);
EXPORT sighandler_t bsd_signal(int number, sighandler_t handler)
{
	return set_handler(REAL_BSD_SIGNAL, number, handler);
}

EXPORT sighandler_t ssignal(int number, sighandler_t handler)
{
	return set_handler(REAL_SSIGNAL, number, handler);
}

EXPORT sighandler_t sysv_signal(int number, sighandler_t handler)
{
	return set_handler(REAL_SYSV_SIGNAL, number, handler);
}

EXPORT sighandler_t __sysv_signal(int number, sighandler_t handler);
EXPORT sighandler_t __sysv_signal(int number, sighandler_t handler)
{
	return set_handler(REAL_OTHER_SYSV_SIGNAL, number, handler);
}

EXPORT sighandler_t sigset(int number, sighandler_t handler);
EXPORT sighandler_t sigset(int number, sighandler_t handler)
{
	return set_handler(REAL_SIGSET, number, handler);
}
