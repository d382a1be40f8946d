/*
 * doord_quiet.c: the end of what COMMAND left behind, once nobody of it does anything.
 *
 * All is quiet where in two looks the same threads sleep, and none was awake between them. A thread that sleeps for a time, in a read, or at
 * descriptors may come back by itself: it is outside, and is waited for no longer than the user's patience after the last request, or
 * TIMES_IN_CALLS as long while a program waits for a call.
 */
#include "doord.h"

#include <signal.h>
#include <time.h>
#include <unistd.h>

enum {
	LOOK_EVERY = 50,      /* milliseconds from one look to the next */
	TIMES_IN_CALLS = 10,  /* so many times longer are those outside waited for where a program waits for a call */
	GRACE = 2000,         /* from SIGTERM to SIGKILL */
};

static struct {
	struct look look[2];
	unsigned next;
	bool has_look;
	uint64_t looked, active, told; /* when the last look was, the last request came, and SIGTERM was sent; 0: not yet */
	bool was_killed;
} own;

/* Milliseconds, never 0. */
uint64_t now(void)
{
	struct timespec time;

	clock_gettime(CLOCK_MONOTONIC, &time);
	return (uint64_t)time.tv_sec * 1000 + (uint64_t)time.tv_nsec / 1000000 + 1;
}

static uint64_t patience(void)
{
	return (uint64_t)doord.options.patience * (doord.calling > 0 ? TIMES_IN_CALLS : 1);
}

/* Whether what is left does nothing, and waits for nothing but others. */
static bool is_quiet(uint64_t time)
{
	struct look *look = &own.look[own.next], *before = &own.look[!own.next];

	look_at_all(look);
	bool has_before = own.has_look;
	own.next = !own.next;
	own.has_look = true;
	own.looked = time;
	if (!look->is_still || !has_before || !before->is_still)
		return false;
	bool is_outside = look->is_outside || is_any_timed();
	if (!is_outside && is_same_look(look, before))
		return true;
	return time - own.active >= patience() && is_outside;
}

/* ending what is left */

static void tell(pid_t pid, void *signal_number)
{
	kill(pid, *(int *)signal_number);
}

/* A signal to all processes below doord, whether they use doors or not. */
void tell_all_below(int signal_number)
{
	each_below(tell, &signal_number);
}

static void end_what_is_left(uint64_t time)
{
	if (!own.told)
		complain("%s has ended: SIGTERM to what it left (--stay waits for it)", doord.options.command[0]);
	else if (!own.was_killed)
		complain("SIGKILL to what %s left", doord.options.command[0]);
	tell_all_below(own.told ? SIGKILL : SIGTERM);
	own.was_killed = own.told != 0;
	own.told = time;
}

/* Somebody asked something. */
void note_activity(void)
{
	own.active = 0;
	forget_quiet();
}

static bool is_left_behind(void)
{
	return doord.command_ended && !doord.options.stay;
}

/* How long the loop may sleep, in milliseconds; -1 for good. */
int time_to_look(void)
{
	if (!is_left_behind())
		return time_to_stall();
	return doord.no_children ? -1 : LOOK_EVERY;
}

/* Once COMMAND has ended, and all is quiet, what it left is ended; before that nothing but a stall is looked for. */
void look_around(void)
{
	uint64_t time = now();

	if (!is_left_behind())
		look_for_stall(time);
	if (!is_left_behind() || doord.no_children)
		return;
	if (own.active == 0) {
		own.active = time;
		own.has_look = false;
	}
	if (own.told) {
		if (time - own.told >= GRACE)
			end_what_is_left(time);
	} else if (doord.command_status == 128 + SIGINT || doord.command_status == 128 + SIGQUIT) {
		/* somebody at a terminal has had enough */
		end_what_is_left(time);
	} else if (time - own.looked >= LOOK_EVERY && is_quiet(time)) {
		end_what_is_left(time);
	}
}

/* The kernel is over: nobody is answered any more, and all are ended. A program that asks all the same finds doord gone. */
void end_programs(void)
{
	static const struct timespec grace = { .tv_sec = GRACE / 1000 };
	sigset_t ends;

	close(doord.listener);
	for (struct client *client = doord.clients; client; client = client->next)
		if (client->control >= 0)
			close(client->control);
	sigemptyset(&ends);
	sigaddset(&ends, SIGCHLD);
	for (int round = 0; round < 2 && !doord.no_children; round++) {
		uint64_t told = now();
		tell_all_below(round == 0 ? SIGTERM : SIGKILL);
		for (take_ends(); !doord.no_children && now() - told < GRACE; take_ends())
			sigtimedwait(&ends, NULL, &grace);
	}
}
