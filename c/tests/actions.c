/*
 * actions: each kind of handler, while its thread waits in door_call: for a thread that serves, and for the end of a procedure. The door is
 * this program's own. The call answers EINTR, with SA_RESTART and without, and the next one is right. Then handlers that come in the middle
 * of shorter requests, which do not end.
 */
#include "test.h"

#include <sys/time.h>

enum { QUEUED, ENTERED };

static int door, unserved, calls;
static volatile int go;
static pthread_t caller;
static char stack[65536];
static volatile sig_atomic_t came, depth, deepest, on_own_stack, info_is_right, was_blocked;

static void serve(void *cookie, char *argument, size_t size, door_desc_t *descriptors, uint_t descriptor_count)
{
	(void)cookie;
	(void)descriptors;
	(void)descriptor_count;
	while (size == 4 && !__atomic_load_n(&go, __ATOMIC_SEQ_CST))
		usleep(500);
	door_return(argument, size, NULL, 0);
}

/* Whether the history has this line already. */
static int is_in_history(const char *text)
{
	static char all[1 << 20];
	int file = open(getenv("HISTORY"), O_RDONLY | O_CLOEXEC);
	ssize_t size = file == -1 ? -1 : read(file, all, sizeof(all) - 1);

	if (size < 0)
		give_up("the history");
	close(file);
	all[size] = '\0';
	return strstr(all, text) != NULL;
}

static void *interrupt(void *state)
{
	char line[64];

	snprintf(line, sizeof(line), state == NULL ? "= wait c%d\n" : "= enter c%d ", calls);
	while (!is_in_history(line))
		usleep(1000);
	check(pthread_kill(caller, SIGUSR1) == 0);
	return NULL;
}

static void handle(int number)
{
	sigset_t now;
	char here;

	came++;
	if (++depth > deepest)
		deepest = depth;
	on_own_stack = &here >= stack && &here < stack + sizeof(stack);
	pthread_sigmask(SIG_SETMASK, NULL, &now);
	was_blocked = sigismember(&now, number) * 2 + sigismember(&now, SIGUSR2);
	if (came == 1)
		raise(number); /* it comes at once with SA_NODEFER, else when the handler has ended */
	depth--;
}

static void handle_with_info(int number, siginfo_t *info, void *context)
{
	info_is_right = info->si_signo == number && info->si_code == SI_TKILL && info->si_pid == getpid() && context != NULL;
	handle(number);
}

static void set_action(int flags)
{
	struct sigaction action;

	memset(&action, 0, sizeof(action));
	action.sa_flags = flags;
	sigaddset(&action.sa_mask, SIGUSR2);
	if (flags & SA_SIGINFO)
		action.sa_sigaction = handle_with_info;
	else
		action.sa_handler = handle;
	check(sigaction(SIGUSR1, &action, NULL) == 0);
	came = depth = deepest = on_own_stack = info_is_right = was_blocked = 0;
}

static int call_once(int fd, const char *text)
{
	char answer[64] = "as before";
	door_arg_t call = { (char *)(uintptr_t)text, strlen(text), NULL, 0, answer, sizeof(answer) }, before = call;
	int error;

	calls++;
	error = door_call(fd, &call) == -1 ? errno : 0;
	if (error != 0)
		check(memcmp(&call, &before, sizeof(call)) == 0 && strcmp(answer, "as before") == 0);
	else
		check(call.data_size == strlen(text) && memcmp(answer, text, call.data_size) == 0);
	return error;
}

static void interrupted(int state, int flags)
{
	struct sigaction now;
	pthread_t other;
	int error, times = (flags & SA_RESETHAND) ? 1 : 2;

	set_action(flags);
	if (flags & SA_RESETHAND)
		came = 1; /* a second signal would end the program */
	__atomic_store_n(&go, 0, __ATOMIC_SEQ_CST);
	calls++;
	other = thread_of(interrupt, state == QUEUED ? NULL : &door);
	calls--;
	error = call_once(state == QUEUED ? unserved : door, "wait");
	if (error != EINTR)
		say("state %d, flags %x: %s", state, (unsigned)flags, error_name(error));
	pthread_join(other, NULL);
	__atomic_store_n(&go, 1, __ATOMIC_SEQ_CST);
	check(came - ((flags & SA_RESETHAND) ? 1 : 0) == times);
	check(deepest == ((flags & SA_NODEFER) && times == 2 ? 2 : 1));
	/* one that is reset runs where its thread does, when its signal came in the middle of a request */
	check(on_own_stack == ((flags & SA_ONSTACK) != 0) || (!on_own_stack && (flags & SA_RESETHAND)));
	check(info_is_right == ((flags & SA_SIGINFO) != 0));
	check(was_blocked == ((flags & SA_NODEFER) ? times == 2 ? 1 : 1 : 3));
	check(sigaction(SIGUSR1, NULL, &now) == 0 && (now.sa_handler == SIG_DFL) == ((flags & SA_RESETHAND) != 0));
	check(call_once(door, "next") == 0);
}

static volatile sig_atomic_t on_stack, off_stack;

static void count(int number)
{
	char here;

	(void)number;
	if (&here >= stack && &here < stack + sizeof(stack))
		on_stack++;
	else
		off_stack++;
}

/* Signals at any moment of requests: each handler runs where it wants to. */
static void in_requests(int flags)
{
	struct sigaction action;
	int i;

	memset(&action, 0, sizeof(action));
	action.sa_handler = count;
	action.sa_flags = flags;
	on_stack = off_stack = 0;
	for (i = 0; i < 40; i++) {
		struct itimerval once = { { 0, 0 }, { 0, 100 + 37 * i } };
		int before = on_stack + off_stack;

		check(sigaction(SIGALRM, &action, NULL) == 0 && setitimer(ITIMER_REAL, &once, NULL) == 0);
		while (on_stack + off_stack == before) {
			int copy = dup(door);

			check(copy != -1 && close(copy) == 0);
		}
	}
	check(on_stack + off_stack == 40 && (flags != SA_ONSTACK || on_stack == 40) && (flags != 0 || off_stack == 40));
}

int main(void)
{
	static const int flags[] = { 0, SA_RESTART, SA_SIGINFO, SA_NODEFER, SA_ONSTACK, (int)SA_RESETHAND,
		SA_RESTART | SA_SIGINFO | SA_NODEFER | SA_ONSTACK, (int)SA_RESETHAND | SA_NODEFER | SA_ONSTACK | SA_SIGINFO };
	stack_t own = { .ss_sp = stack, .ss_size = sizeof(stack) };
	size_t i;

	caller = pthread_self();
	check(sigaltstack(&own, NULL) == 0);
	door = door_create(serve, NULL, 0);
	unserved = door_create(serve, NULL, DOOR_PRIVATE);
	for (i = 0; i < sizeof(flags) / sizeof(flags[0]); i++) {
		interrupted(QUEUED, flags[i]);
		interrupted(ENTERED, flags[i]);
	}
	in_requests(0);
	in_requests(SA_ONSTACK);
	in_requests(SA_ONSTACK | (int)SA_RESETHAND);
	say("done");
	return 0;
}
