/*
 * leaves: handlers that leave by siglongjmp and by longjmp, out of door_call and out of door_return, on the thread's stack and on one of
 * their own that lies above it or below. The thread's next calls are right, and it can serve again.
 */
#include "test.h"

#include <setjmp.h>
#include <sys/mman.h>

enum { STACK = 65536, WAITS = 2 };

static int door, served;
static char *low, *high;
static volatile int serves, left;
static __thread sigjmp_buf with_mask;
static __thread jmp_buf without_mask;
static __thread volatile int plainly;

static void handle(int number)
{
	(void)number;
	if (plainly)
		longjmp(without_mask, 1);
	siglongjmp(with_mask, 1);
}

static void serve(void *cookie, char *argument, size_t size, door_desc_t *descriptors, uint_t descriptor_count)
{
	(void)cookie;
	(void)descriptors;
	(void)descriptor_count;
	door_return(argument, size, NULL, 0);
}

/* Its caller waits: it is interrupted, and leaves. */
static void hit(void *cookie, char *argument, size_t size, door_desc_t *descriptors, uint_t descriptor_count)
{
	pthread_t caller;

	(void)cookie;
	(void)descriptors;
	(void)descriptor_count;
	if (size == sizeof(caller)) {
		memcpy(&caller, argument, sizeof(caller));
		check(pthread_kill(caller, SIGUSR1) == 0);
		usleep(20000); /* the caller has left by then, or its call has an answer */
	}
	door_return(argument, size, NULL, 0);
}

static void calls_are_right(void)
{
	char request[64], answer[64];
	int i, copy;

	for (i = 0; i < 3; i++) {
		snprintf(request, sizeof(request), "request %d", ++left);
		check(ask(door, request, answer, sizeof(answer)) == 0 && strcmp(answer, request) == 0);
	}
	copy = dup(door);
	check(copy != -1 && close(copy) == 0);
}

static void leave_a_call(int way)
{
	pthread_t self = pthread_self();
	char answer[64];
	door_arg_t call = { (char *)&self, sizeof(self), NULL, 0, answer, sizeof(answer) };
	sigset_t one, before;

	plainly = way;
	if (way ? setjmp(without_mask) == 0 : sigsetjmp(with_mask, 1) == 0) {
		door_call(door, &call);
		say("it came back");
	}
	calls_are_right();
	/* longjmp leaves the mask as it was in the handler */
	sigemptyset(&one);
	sigaddset(&one, SIGUSR1);
	check(pthread_sigmask(SIG_UNBLOCK, &one, &before) == 0 && sigismember(&before, SIGUSR1) == way);
}

static void have_stack(char *stack)
{
	stack_t own = { .ss_sp = stack, .ss_size = STACK, .ss_flags = stack == NULL ? SS_DISABLE : 0 };
	struct sigaction action;

	check(sigaltstack(&own, NULL) == 0);
	memset(&action, 0, sizeof(action));
	action.sa_handler = handle;
	action.sa_flags = SA_ONSTACK;
	check(sigaction(SIGUSR1, &action, NULL) == 0);
}

static void *leave_calls(void *stack)
{
	int i;

	have_stack(stack);
	for (i = 0; i < 4; i++)
		leave_a_call(i % 2);
	return NULL;
}

/* Each time it comes to wait again, as the first time. */
static void *serve_privately(void *stack)
{
	have_stack(stack);
	while (serves < 2 * WAITS) {
		check(door_bind(served) == 0);
		if (sigsetjmp(with_mask, 1) == 0) {
			serves++;
			door_return(NULL, 0, NULL, 0);
			say("door_return: %s", error_name(errno));
		}
		calls_are_right();
		serves++;
	}
	return NULL;
}

/* Its kernel's thread waits on, and another thread serves in its place. */
static void leave_a_wait(char *stack)
{
	pthread_t thread;
	char answer[64];
	int i;

	serves = 0;
	served = door_create(serve, NULL, DOOR_PRIVATE);
	thread = thread_of(serve_privately, stack);
	for (i = 0; i < WAITS; i++) {
		while (serves < 2 * i + 1)
			usleep(500);
		check(ask(served, "a", answer, sizeof(answer)) == 0 && strcmp(answer, "a") == 0);
		check(pthread_kill(thread, SIGUSR1) == 0);
		while (serves < 2 * i + 2)
			usleep(500);
	}
	pthread_join(thread, NULL);
	check(ask(served, "b", answer, sizeof(answer)) == 0 && strcmp(answer, "b") == 0);
	check(door_revoke(served) == 0);
}

int main(void)
{
	char *stacks[3];
	int i;

	high = mmap(NULL, STACK, PROT_READ | PROT_WRITE, MAP_PRIVATE | MAP_ANONYMOUS, -1, 0);
	door = door_create(hit, NULL, 0);
	stacks[0] = NULL;
	stacks[1] = high; /* above those of the threads that come */
	for (i = 0; i < 2; i++) {
		leave_calls(stacks[i]);
		pthread_join(thread_of(leave_calls, stacks[i]), NULL);
	}
	low = mmap(NULL, STACK, PROT_READ | PROT_WRITE, MAP_PRIVATE | MAP_ANONYMOUS, -1, 0);
	pthread_join(thread_of(leave_calls, low), NULL);
	stacks[2] = low;
	for (i = 0; i < 3; i++)
		leave_a_wait(stacks[i]);
	say("done");
	return 0;
}
