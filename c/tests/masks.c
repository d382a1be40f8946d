/*
 * masks: signals that are blocked while a thread waits in door_call do not end it, and come when they are let in; those of one number from
 * SIGRTMIN on come in their order; a call in which a signal came while another is blocked is ended by that one alone. The script sends them.
 */
#include "test.h"

static int door;
static int order[8];
static volatile sig_atomic_t came;

static void count(int number)
{
	(void)number;
	came++;
}

static void note(int number, siginfo_t *info, void *context)
{
	(void)number;
	(void)context;
	if (came < 8)
		order[came++] = info->si_value.sival_int;
}

static void set_mask(int how, int number)
{
	sigset_t one;

	sigemptyset(&one);
	sigaddset(&one, number);
	check(sigprocmask(how, &one, NULL) == 0);
}

static int is_pending(int number)
{
	sigset_t pending;

	check(sigpending(&pending) == 0);
	return sigismember(&pending, number) == 1;
}

int main(void)
{
	struct sigaction action;
	char answer[64];
	int i;

	memset(&action, 0, sizeof(action));
	action.sa_handler = count;
	check(sigaction(SIGUSR1, &action, NULL) == 0 && sigaction(SIGUSR2, &action, NULL) == 0);
	door = open("w", O_RDWR);
	set_mask(SIG_BLOCK, SIGUSR1);
	say("call: %s", error_name(ask(door, "hold go x", answer, sizeof(answer))));
	check(came == 0 && is_pending(SIGUSR1));
	check(ask(door, "echo y", answer, sizeof(answer)) == 0 && strcmp(answer, "y") == 0);
	/* the script sends SIGUSR2 */
	say("call: %s", error_name(ask(door, "hold gone x", answer, sizeof(answer))));
	check(came == 1 && is_pending(SIGUSR1));
	set_mask(SIG_UNBLOCK, SIGUSR1);
	check(came == 2 && !is_pending(SIGUSR1));

	action.sa_sigaction = note;
	action.sa_flags = SA_SIGINFO | SA_ONSTACK;
	check(sigaction(SIGRTMIN, &action, NULL) == 0);
	came = 0;
	set_mask(SIG_BLOCK, SIGRTMIN);
	for (i = 0; i < 5; i++)
		check(sigqueue(getpid(), SIGRTMIN, (union sigval){ .sival_int = i + 1 }) == 0);
	check(ask(door, "echo z", answer, sizeof(answer)) == 0 && came == 0);
	set_mask(SIG_UNBLOCK, SIGRTMIN);
	check(came == 5);
	for (i = 0; i < 5; i++)
		check(order[i] == i + 1);
	say("done");
	return 0;
}
