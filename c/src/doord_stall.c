/*
 * doord_stall.c: a stall. Programs wait for the ends of calls, all threads below doord sleep, and nobody outside can
 * move one of them: none sleeps for a time, at descriptors, or in a read of what somebody outside may write, none is
 * stopped, and no alarm is set.
 *
 * A program that waits in no call makes no stall, however long all sleep: a server may wait for clients that somebody
 * starts later.
 */
#include "doord.h"

#include <stdarg.h>
#include <string.h>

enum {
	LOOK_AGAIN = 300,       /* milliseconds to the next look, at first */
	LOOK_AGAIN_MOST = 4800, /* and at most: somebody works for long while a call waits */
};

static struct {
	struct look first, second;
	bool has_first;        /* all slept at the first look, and the alarms were asked for */
	uint64_t next;         /* when the next look is; 0: somebody has asked something just now */
	unsigned pause;
} own;

/* Somebody asked something. */
void forget_quiet(void)
{
	own.next = 0;
}

/* How long the loop may sleep, in milliseconds; -1 for good. */
int time_to_stall(void)
{
	if (doord.calling == 0)
		return -1;
	return own.next == 0 ? (int)doord.options.patience + 1 : LOOK_AGAIN;
}

static bool is_asleep(const struct look *look)
{
	return look->is_still && !look->is_movable;
}

/* Each thread that waits for doord looks once a second whether an alarm of its program is set: they are to look now. */
static void ask_for_alarms(void)
{
	for (struct client *client = doord.clients; client; client = client->next) {
		for (unsigned i = 0; client->area && i < WIRE_SLOTS; i++)
			atomic_store(&client->area->slot[i].looked, 0);
	}
}

/* Whether all of them have looked, and whether there is an alarm. */
static bool are_alarms_known(bool *is_any)
{
	for (const struct client *client = doord.clients; client; client = client->next) {
		if (!client->area || !client->slot)
			continue;
		if (atomic_load(&client->area->has_alarm))
			*is_any = true;
		for (unsigned i = 0; i < WIRE_SLOTS; i++)
			if (client->slot[i].is_busy && atomic_load(&client->area->slot[i].looked) != client->slot[i].request.number)
				return false;
	}
	return true;
}

/* Somebody is awake, or may come back: the next look comes later. */
static void look_later(void)
{
	own.has_first = false;
	own.pause = own.pause < LOOK_AGAIN_MOST ? 2 * own.pause : LOOK_AGAIN_MOST;
}

void look_for_stall(uint64_t time)
{
	bool is_timed = false;

	if (doord.calling == 0)
		return;
	if (own.next == 0) {
		own.next = time + doord.options.patience;
		own.pause = LOOK_AGAIN;
		own.has_first = false;
	}
	if (time < own.next)
		return;
	if (!own.has_first) {
		look_at_all(&own.first);
		own.has_first = is_asleep(&own.first);
		if (own.has_first)
			ask_for_alarms();
		else
			look_later();
	} else if (is_any_timed()) {
		look_later();
	} else if (are_alarms_known(&is_timed)) {
		look_at_all(&own.second);
		doord.is_stalled = !is_timed && is_asleep(&own.second) && is_same_look(&own.first, &own.second);
		look_later();
	}
	own.next = time + own.pause;
}

/* who waits for what */

static __attribute__((format(printf, 1, 2))) void tell(const char *form, ...)
{
	char line[400];
	va_list list;

	va_start(list, form);
	vsnprintf(line, sizeof line, form, list);
	va_end(list);
	complain("%s", line);
	remark("%s", line);
}

/* A thread as the history has it, and its process. */
static const char *thread_text(int number, char *text, size_t room)
{
	char name[DOORD_NAME];
	const struct client *client = doord.place[doord.member[number].place].client;

	name_member(number, name);
	snprintf(text, room, "%s (pid %d)", name, client ? (int)client->pid : 0);
	return text;
}

static const char *door_text(const struct object *door, char *text, size_t room)
{
	for (unsigned i = 0; i < doord.paths; i++)
		if (doord.path[i].door == door)
			return doord.path[i].text;
	snprintf(text, room, "a door of %s", doord.place[door->place].name);
	return text;
}

/* The thread whose invocation this call is, or 0. */
static int server_of(uint32_t call)
{
	for (int t = 2; t <= doord.members; t++)
		if (doord.member[t].in_service && doord.member[t].serves == call)
			return t;
	return 0;
}

static void tell_wait(int number)
{
	const struct member *member = &doord.member[number];
	int server = server_of(member->calls);
	char who[64], by[64], where[64];
	const char *door = door_text(member->called, where, sizeof where);

	thread_text(number, who, sizeof who);
	if (server)
		tell("stall: %s waits in a call of %.200s: %s has it, and %s", who, door, thread_text(server, by, sizeof by),
			doord.member[server].calls ? "waits in a call itself" : "sleeps in its procedure");
	else
		tell("stall: %s waits in a call of %.200s: no thread has taken it", who, door);
}

/* The thread with the first call after this one, or 0. */
static int next_calling(uint32_t call)
{
	int found = 0;

	for (int t = 2; t <= doord.members; t++)
		if (doord.member[t].calls > call && (!found || doord.member[t].calls < doord.member[found].calls))
			found = t;
	return found;
}

void tell_stall(void)
{
	tell("stall: programs wait in calls, all sleep, and nothing outside moves them: they are ended");
	for (int t = next_calling(0); t != 0; t = next_calling(doord.member[t].calls))
		tell_wait(t);
	for (size_t i = 0; i < doord.held_count; i++)
		tell("stall: pid %d has a call that is held back, since as many wait as may", (int)doord.held[i]->client->pid);
}

static bool has_waiting_thread(const struct place *place)
{
	for (int t = place->first; t <= place->last; t++)
		if (is_waiting(&doord.member[t]))
			return true;
	return false;
}

/*
 * Threads that run, and of which nobody will ask anything, exit, so that the kernel's last line says who waits. It is
 * `open` where others run: one that is in a procedure, whose client would be told of its end; or one whose process
 * would end with it, and close what it has.
 */
void end_unused_threads(void)
{
	struct asked end = { .op = KERNEL_OP_EXIT };

	for (int i = 2; i <= doord.places; i++) {
		const struct place *place = &doord.place[i];
		if (!place->is_born || place->is_spent || (place->rows > 0 && !has_waiting_thread(place)))
			continue;
		for (int t = place->first; t <= place->last; t++)
			if (is_running(t) && !doord.member[t].in_service)
				enter_kernel(t, &end);
	}
}
