/* doord_forks.c: fork(2). A child of a process with descriptors is one of those that the kernel has in store for it. */
#include "doord.h"

#include <errno.h>
#include <sys/random.h>
#include <sys/syscall.h>
#include <unistd.h>

/*
 * A child says whose it is by a token: below, the number of its place, and above what nobody can guess, since whoever comes with a token has
 * the descriptors of another program.
 */
enum { TOKEN_PLACE = 128, GRACE = 2000 };

_Static_assert((int)DOORD_PLACES < (int)TOKEN_PLACE, "a place has room in a token");

static void make_token(int number)
{
	uint32_t some;

	if (getrandom(&some, sizeof some, 0) != (ssize_t)sizeof some)
		fail("there are no random numbers");
	doord.place[number].token = some / TOKEN_PLACE * TOKEN_PLACE + (uint32_t)number;
}

/* The child that has begun and has not come yet; 0 where it is none. */
int place_of_token(uint32_t token)
{
	uint32_t number = token % TOKEN_PLACE;
	bool is_there = number >= 2 && number <= (uint32_t)doord.places && doord.place[number].token == token;

	return is_there && doord.place[number].is_born && !doord.place[number].is_spent ? (int)number : 0;
}

/* The child of a bound thread is bound to a door that is invalid. */
static void bind_first(int child)
{
	struct object *none = new_object();

	none->is_door = none->is_revoked = true;
	none->place = child;
	hold(none);
	doord.member[doord.place[child].first].bound = none;
}

static void note_inherited(struct place *child, const struct client *parent)
{
	child->is_renewing = true;
	for (unsigned row = 0; row < DOORD_ROWS; row++)
		child->inherited[row] = parent->stand_in[row].end >= 0 ? parent->stand_in[row].pipe : 0;
}

/* One of a parent that was still on its way when the kernel forked. */
void pipe_came(int parent, uint32_t row, uint32_t pipe)
{
	for (int i = 2; i <= doord.places; i++) {
		struct place *child = &doord.place[i];
		bool is_same = child->row[row] && child->row[row] == doord.place[parent].row[row];
		if (child->is_renewing && child->parent == parent && is_same && child->inherited[row] == 0)
			child->inherited[row] = pipe;
	}
}

/* Whether what stood for the descriptor in the child's parent is this pipe; else it is another one's, made since. */
bool is_inherited(const struct client *child, uint32_t row, uint32_t pipe)
{
	const struct place *place = &doord.place[child->place];

	return !place->is_renewing || place->inherited[row] == 0 || place->inherited[row] == pipe;
}

/* The child has no other pipes: what its parent closed meanwhile is closed here, too. */
void renewed(struct client *child)
{
	struct place *place = &doord.place[child->place];

	if (!place->is_renewing)
		return;
	place->is_renewing = false;
	for (unsigned row = 0; row < DOORD_ROWS; row++)
		if (place->row[row] && child->stand_in[row].end < 0 && !child->stand_in[row].is_missed)
			close_row(place->keeper, row);
	settle();
}

void ask_fork(struct slot *slot, int number)
{
	struct member *member = &doord.member[number];
	struct place *place = &doord.place[member->place];

	int child = find_child(member->place);
	/* the child comes as any program does: without descriptors of doors, or where those of a client are to be dead */
	if (place->rows == 0 || (child == 0 && place->doors == 0 && slot->request.a == 0)) {
		begin_reply(slot, KERNEL_ANSWER_CHILD);
		return;
	}
	if (child == 0) {
		place_full(member->place, "children for forks");
		reply_error(slot, EAGAIN);
		return;
	}
	name_place(child, place->occupant);
	struct asked asked = { .op = KERNEL_OP_FORK, .a = (uint32_t)child };
	enter_kernel(number, &asked);
	if (answer.kind != KERNEL_ANSWER_CHILD) {
		reply_error(slot, host_error(answer.number[0]));
		return;
	}
	adopt_child(child, member->place);
	if (member->bound)
		bind_first(child);
	note_inherited(&doord.place[child], slot->client);
	make_token(child);
	begin_reply(slot, KERNEL_ANSWER_CHILD)->a = doord.place[child].token;
}

/* A child of this program that its fork began, and that nobody has yet; else 0. */
static int expected(const struct client *parent, uint32_t token)
{
	int child = place_of_token(token);

	return child != 0 && doord.place[child].parent == parent->place && !doord.place[child].client ? child : 0;
}

/* The system had no process for the child. */
void fork_failed(struct slot *slot)
{
	int child = expected(slot->client, slot->request.a);

	if (child != 0)
		end_place(child);
	begin_reply(slot, KERNEL_ANSWER_DONE);
}

/* The parent says who the child is, so that its end is seen though it never comes itself. */
void forked(const struct client *parent, uint32_t token, pid_t pid)
{
	int child = expected(parent, token);

	if (child == 0)
		return;
	bool is_child = pid > 0 && (parent_of(pid) == parent->pid || is_below(pid));
	struct client *client = is_child ? new_client(pid, (int)syscall(SYS_pidfd_open, pid, 0)) : NULL;
	if (!client) {
		end_place(child);
		return;
	}
	client->place = child;
	doord.place[child].client = client;
	remark("pid %d is %s, by fork", (int)pid, doord.place[child].name);
}

/*
 * A parent that is killed in fork(2) has not said who its child is, or that there is none. A child that there is comes by itself, and soon:
 * what was begun for one that does not come is ended, so that nobody waits for its descriptors.
 */
static bool is_awaited(const struct place *place)
{
	return place->token != 0 && place->is_born && !place->is_spent && !place->client;
}

void orphan_children(int parent)
{
	for (int i = 2; i <= doord.places; i++)
		if (doord.place[i].parent == parent && is_awaited(&doord.place[i]))
			doord.place[i].orphaned = now();
}

/* How long the loop may sleep, in milliseconds; -1 for good. */
int time_for_orphans(void)
{
	for (int i = 2; i <= doord.places; i++)
		if (doord.place[i].orphaned)
			return GRACE / 4;
	return -1;
}

void end_orphans(void)
{
	for (int i = 2; i <= doord.places; i++) {
		struct place *place = &doord.place[i];
		if (place->orphaned && !is_awaited(place))
			place->orphaned = 0;
		else if (place->orphaned && now() - place->orphaned >= GRACE)
			end_place(i);
	}
}
