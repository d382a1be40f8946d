/* doord_ends.c: what becomes of a process of the kernel when its program has ended. */
#include "doord.h"

void close_row(int member, uint64_t fd)
{
	struct asked close = { .op = KERNEL_OP_CLOSE, .a = (uint32_t)fd };

	if (enter_kernel(member, &close))
		clear_row(doord.member[member].place, fd);
}

/* A process with doors ends with its program, and one of which a thread waits for what no request can end. */
static bool is_to_be_killed(const struct place *place)
{
	if (place->doors > 0)
		return true;
	for (int t = place->first; t <= place->last; t++)
		if (doord.member[t].waits_to_serve || doord.member[t].in_service || doord.member[t].awaits)
			return true;
	return false;
}

static void kill_place(int number)
{
	struct place *place = &doord.place[number];
	struct asked kill = { .op = KERNEL_OP_KILL, .a = (uint32_t)number };

	enter_kernel(1, &kill);
	place->is_spent = true;
	end_timers(number, true);
	for (int t = place->first; t <= place->last; t++) {
		struct member *member = &doord.member[t];
		forget_call(member);
		drop(member->bound);
		member->bound = NULL;
		member->waits_to_serve = member->in_service = member->awaits = member->gets = false;
		forget_left(member);
		member->life = MEMBER_SPENT;
	}
	for (unsigned fd = 0; fd < DOORD_ROWS; fd++)
		clear_row(number, fd);
	tell_validity();
}

/* A wait in a call, or at a port, is interrupted, and its end told to nobody. */
static bool end_waiting(int number)
{
	struct asked interrupt = { .op = KERNEL_OP_INTERRUPT, .a = (uint32_t)number };

	if (!is_waiting(&doord.member[number]))
		return true;
	enter_kernel(1, &interrupt);
	if (can_go_on(number))
		go_on(number);
	return !is_waiting(&doord.member[number]);
}

/* All threads run, no descriptor is open, and nothing is bound: the place is as new, for another program. */
static bool empty_place(int number)
{
	struct place *place = &doord.place[number];

	for (int t = place->first; t <= place->last; t++)
		if (!end_waiting(t))
			return false;
	end_timers(number, false);
	for (int t = place->first; t <= place->last; t++)
		unbind_member(t);
	for (unsigned fd = 0; fd < DOORD_ROWS && place->rows > 0; fd++)
		if (place->row[fd])
			close_row(place->keeper, fd);
	for (int t = place->first; t <= place->last; t++)
		if (doord.member[t].life == MEMBER_LENT)
			doord.member[t].life = MEMBER_FREE;
	return !doord.is_full;
}

/* Nobody else has a turn before this is done. */
void end_place(int number)
{
	struct place *place = &doord.place[number];

	place->client = NULL;
	forget_sources(number);
	place->token = 0;
	place->orphaned = 0;
	for (int t = place->first; t <= place->last; t++) {
		if (doord.member[t].slot)
			doord.member[t].slot->member = 0;
		doord.member[t].slot = NULL;
	}
	if (is_to_be_killed(place) || !empty_place(number))
		kill_place(number);
	orphan_children(number);
	settle();
}
