/* handlers: what sigaction(2) and signal(2) answer, and what handlers are given, is as without the library. */
#define _GNU_SOURCE 1
#include "test.h"

static volatile sig_atomic_t came, with_info, right_info, on_own_stack, blocked;
static char stack[65536];

static void plain(int number) { came = number; }

static void other(int number) { came = -number; }

static void with(int number, siginfo_t *info, void *context)
{
	sigset_t now;
	char here;

	with_info = number;
	right_info = info->si_signo == number && info->si_pid == getpid() && context != NULL;
	on_own_stack = &here >= stack && &here < stack + sizeof(stack);
	pthread_sigmask(SIG_SETMASK, NULL, &now);
	blocked = sigismember(&now, SIGUSR2) == 1 && sigismember(&now, number) == 1 && sigismember(&now, SIGHUP) == 0;
}

static void actions(void)
{
	struct sigaction action, found;

	check(sigaction(SIGUSR1, NULL, &found) == 0 && found.sa_handler == SIG_DFL);
	check(signal(SIGUSR1, plain) == SIG_DFL && signal(SIGUSR1, other) == plain && signal(SIGUSR1, plain) == other);
	check(raise(SIGUSR1) == 0 && came == SIGUSR1);
	check(sigaction(SIGUSR1, NULL, &found) == 0 && found.sa_handler == plain);
	check((found.sa_flags & SA_SIGINFO) == 0 && (found.sa_flags & SA_RESTART) != 0);
	memset(&action, 0, sizeof(action));
	action.sa_sigaction = with;
	action.sa_flags = SA_SIGINFO | SA_ONSTACK;
	sigemptyset(&action.sa_mask);
	sigaddset(&action.sa_mask, SIGUSR2);
	check(sigaction(SIGUSR1, &action, &found) == 0 && found.sa_handler == plain);
	check(kill(getpid(), SIGUSR1) == 0 && with_info == SIGUSR1 && right_info && on_own_stack && blocked);
	check(sigaction(SIGUSR1, NULL, &found) == 0 && found.sa_sigaction == with);
	check((found.sa_flags & (SA_SIGINFO | SA_ONSTACK)) == (SA_SIGINFO | SA_ONSTACK));
	check(sigismember(&found.sa_mask, SIGUSR2) == 1 && sigismember(&found.sa_mask, SIGHUP) == 0);
	check(signal(SIGUSR1, SIG_IGN) == (void (*)(int))(uintptr_t)with);
	came = 0;
	check(raise(SIGUSR1) == 0 && came == 0);
	check(signal(SIGUSR1, SIG_DFL) == SIG_IGN);
	memset(&action, 0, sizeof(action));
	action.sa_handler = plain;
	action.sa_flags = SA_RESETHAND;
	check(sigaction(SIGUSR1, &action, NULL) == 0 && raise(SIGUSR1) == 0 && came == SIGUSR1);
	check(sigaction(SIGUSR1, NULL, &found) == 0 && found.sa_handler == SIG_DFL);
	fails(sigaction(SIGKILL, &action, NULL), EINVAL);
	fails(sigaction(1000, &action, NULL), EINVAL);
	fails(sigaction(-1, &action, NULL), EINVAL);
	check(signal(SIGKILL, plain) == SIG_ERR && errno == EINVAL);
}

int main(void)
{
	stack_t own = { .ss_sp = stack, .ss_size = sizeof(stack) };
	char answer[64];
	int door;
	pid_t child;

	check(sigaltstack(&own, NULL) == 0);
	actions();
	door = open("w", O_RDWR);
	check(ask(door, "echo x", answer, sizeof(answer)) == 0);
	actions();
	/* a child has its parent's handlers */
	signal(SIGUSR2, plain);
	child = fork();
	if (child == 0) {
		came = 0;
		raise(SIGUSR2);
		_exit(came == SIGUSR2 ? 4 : 5);
	}
	check(end_of(child) == 4);
	say("done");
	return 0;
}
