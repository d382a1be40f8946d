/* doord_places.c: processes and threads of the kernel. There are 64 of each for the kernel's whole life, so they are lent to programs. */
#include "doord.h"

#include <string.h>

enum { FEW_LEFT = 2 }; /* processes: one for a server, and one for its client */

static unsigned members_of(const struct shape *shape)
{
	return 1 + shape->threads + shape->spares;
}

static int add_members(int place, enum member_kind kind, unsigned count)
{
	int first = doord.members + 1;

	for (unsigned i = 0; i < count; i++) {
		struct member *member = &doord.member[++doord.members];
		member->kind = kind;
		member->place = place;
	}
	return first;
}

static int add_place(const struct shape *shape, int parent)
{
	int number = ++doord.places;
	struct place *place = &doord.place[number];

	strcpy(place->program, shape->program);
	place->parent = parent;
	/* the kernel binds a forked child's first thread as the forking one was, so the first is one that a program may have */
	place->first = doord.members + 1;
	add_members(number, MEMBER_ORDINARY, shape->threads);
	place->keeper = add_members(number, MEMBER_KEEPER, 1);
	add_members(number, MEMBER_SPARE, shape->spares);
	place->last = doord.members;
	return number;
}

static bool has_room(const struct shape *shape)
{
	return doord.places + 1 + (int)shape->children <= DOORD_PLACES
		&& doord.members + (int)((1 + shape->children) * members_of(shape)) <= DOORD_MEMBERS;
}

/* A process of this shape, and the children that are kept for its forks. */
static void add_shape(const struct shape *shape)
{
	int parent = add_place(shape, 0);

	for (unsigned i = 0; i < shape->children; i++)
		add_place(shape, parent);
}

static unsigned sum_of_members(const struct options *options)
{
	unsigned sum = 1;

	for (unsigned i = 0; i < options->shapes; i++)
		if (strcmp(options->shape[i].program, "*") != 0)
			sum += (1 + options->shape[i].children) * members_of(&options->shape[i]);
	return sum;
}

/* init, a process for each -b, and as many of the rest's shape as there is room for. */
void lay_out_places(void)
{
	static const struct shape init = { "init", 0, 0, 0 };
	struct shape rest = { "*", 2, 4, 0 };
	const struct options *options = &doord.options;

	add_place(&init, 0);
	doord.place[1].is_born = true;
	strcpy(doord.place[1].name, "init");
	for (unsigned i = 0; i < options->shapes; i++) {
		const struct shape *shape = &options->shape[i];
		if (strcmp(shape->program, "*") == 0)
			rest = *shape;
		else if (has_room(shape))
			add_shape(shape);
		else
			fail("-b %s=%u,%u,%u: a kernel has 64 processes and 64 threads; these shapes have %u threads (one for doord, and one more than its own for each process)",
				shape->program, shape->threads, shape->spares, shape->children, sum_of_members(options));
	}
	if (doord.places == 1 && !has_room(&rest))
		fail("-b *=%u,%u,%u: a kernel has 64 processes and 64 threads, one of each for doord", rest.threads, rest.spares, rest.children);
	while (has_room(&rest))
		add_shape(&rest);
}

/* names */

static bool is_name_taken(const char *name)
{
	for (int i = 1; i <= doord.places; i++)
		if (strcmp(doord.place[i].name, name) == 0)
			return true;
	return false;
}

/* What the program is called, in the letters of a name, cut so that a number and a member's ending find room. */
static void spell_name(const char *program, char *name, size_t most)
{
	size_t n = 0;

	if (*program < 'A' || *program > 'z')
		name[n++] = 'p';
	for (; *program && n < most; program++) {
		char c = *program;
		bool is_plain = (c >= 'a' && c <= 'z') || (c >= '0' && c <= '9');
		name[n++] = is_plain ? c : c >= 'A' && c <= 'Z' ? (char)(c - 'A' + 'a') : '_';
	}
	name[n] = 0;
	if (name[0] < 'a' || name[0] > 'z')
		name[0] = 'p';
	/* pN and tN are what processes and threads are called before they have names */
	if ((name[0] == 'p' || name[0] == 't') && name[1] >= '0' && name[1] <= '9' && n < most)
		memmove(name + 2, name + 1, n), name[1] = '_';
}

/* What the history calls a thread: by its process, its kind, and its number among those of its kind. */
void name_member(int number, char *name)
{
	static const char *const ending[] = { [MEMBER_KEEPER] = "_k", [MEMBER_ORDINARY] = "_", [MEMBER_SPARE] = "_s" };
	const struct member *member = &doord.member[number];
	const struct place *place = &doord.place[member->place];
	unsigned count = 0;

	for (int t = place->first; t <= number; t++)
		count += doord.member[t].kind == member->kind;
	if (member->kind == MEMBER_KEEPER)
		snprintf(name, DOORD_NAME, "%.12s%s", place->name, ending[member->kind]);
	else
		snprintf(name, DOORD_NAME, "%.12s%s%u", place->name, ending[member->kind], count % 100);
}

void name_place(int number, const char *program)
{
	struct place *place = &doord.place[number];
	char base[DOORD_NAME], name[DOORD_NAME + 16], line[DOORD_MEMBERS * 24], thread[DOORD_NAME];
	size_t used = 0;

	spell_name(program, base, 10);
	/* a second p is not p2, which is what another process is called before it has a name */
	const char *between = base[1] ? "" : "_";
	snprintf(name, sizeof name, "%s", base);
	for (unsigned n = 2; is_name_taken(name); n++)
		snprintf(name, sizeof name, "%s%s%u", base, between, n);
	snprintf(place->name, sizeof place->name, "%.12s", name);
	for (int t = place->first; t <= place->last; t++) {
		name_member(t, thread);
		used += (size_t)snprintf(line + used, sizeof line - used, " %s", thread);
	}
	if (!declare("name p%d %s%s", number, place->name, line))
		fail("no name for %s", place->name);
}

/* places for programs */

static bool is_shape_for(const struct place *place, const char *program, bool is_own)
{
	return strcmp(place->program, is_own ? program : "*") == 0;
}

/* A process that nobody has: best one that this program had before, then one that nobody had, then any. */
static int best_place(const char *program, bool is_own)
{
	int unborn = 0, other = 0;

	for (int i = 2; i <= doord.places; i++) {
		const struct place *place = &doord.place[i];
		if (place->client || place->is_spent || !is_shape_for(place, program, is_own))
			continue;
		if (place->is_born && strcmp(place->occupant, program) == 0)
			return i;
		if (!place->is_born && place->parent == 0 && !unborn)
			unborn = i;
		if (place->is_born && !other)
			other = i;
	}
	return unborn ? unborn : other;
}

int find_place(const char *program)
{
	int place = best_place(program, true);

	return place ? place : best_place(program, false);
}

static void store_members(const struct place *place)
{
	for (int t = place->first; t <= place->last; t++)
		if (doord.member[t].kind != MEMBER_SPARE)
			doord.member[t].life = MEMBER_FREE;
}

/* A program gets a place, which begins with the first of them. */
bool begin_place(int number, const char *program)
{
	struct place *place = &doord.place[number];

	if (!place->is_born) {
		struct asked fork = { .op = KERNEL_OP_FORK, .a = (uint32_t)number };
		name_place(number, program);
		if (!enter_kernel(1, &fork) || answer.kind != KERNEL_ANSWER_CHILD)
			return false;
		place->is_born = true;
		store_members(place);
	}
	if (strcmp(place->occupant, program) != 0)
		place->limits_told = 0;
	snprintf(place->occupant, sizeof place->occupant, "%s", program);
	place->doors = 0;
	return true;
}

/* A child that is kept for a fork of this process, or 0. */
int find_child(int parent)
{
	for (int i = 2; i <= doord.places; i++)
		if (doord.place[i].parent == parent && !doord.place[i].is_born && !doord.place[i].is_spent)
			return i;
	return 0;
}

/* A child that has begun has the rows of its parent. */
void adopt_child(int number, int parent)
{
	struct place *place = &doord.place[number];

	place->is_born = true;
	memcpy(place->occupant, doord.place[parent].occupant, sizeof place->occupant);
	store_members(place);
	for (unsigned fd = 0; fd < DOORD_ROWS; fd++)
		if (doord.place[parent].row[fd])
			set_row(number, fd, doord.place[parent].row[fd]);
	close_pipes(number);
}

/* threads */

static int lend(struct slot *slot, enum member_kind kind)
{
	const struct place *place = &doord.place[slot->client->place];

	for (int t = place->first; t <= place->last; t++) {
		struct member *member = &doord.member[t];
		/* one that is free and bound is a child's first: the thread that forked has it, which has the first slot */
		if (member->kind == kind && member->life == MEMBER_FREE && (!member->bound || slot->index == 0)) {
			member->life = MEMBER_LENT;
			member->slot = slot;
			slot->member = t;
			return t;
		}
	}
	return 0;
}

/* A thread of the slot's process, or 0 where all are lent. Who begins with door_return(3C) is a server thread, which the kernel started. */
int lend_member(struct slot *slot, bool to_serve)
{
	const struct member *first = &doord.member[doord.place[slot->client->place].first];
	bool has_forked = slot->index == 0 && first->bound && first->life == MEMBER_FREE;
	int t = to_serve && !has_forked ? lend(slot, MEMBER_SPARE) : 0;

	return t ? t : lend(slot, MEMBER_ORDINARY);
}

void store_member(int number)
{
	struct member *member = &doord.member[number];

	if (member->slot)
		member->slot->member = 0;
	member->slot = NULL;
	member->life = MEMBER_FREE;
}

/* Whether it waits in the kernel, for whatever. */
bool is_waiting(const struct member *member)
{
	return member->calls || member->waits_to_serve || member->awaits || member->gets;
}

/* The kernel says that this thread can go on: a spare that has started is a server thread that its program is to make. */
void member_woken(int number)
{
	struct member *member = &doord.member[number];
	struct place *place = &doord.place[member->place];

	if (member->life != MEMBER_UNBORN) {
		set_ready(number);
	} else if (member->kind == MEMBER_SPARE && place->is_born) {
		member->life = MEMBER_FREE;
		if (place->client)
			place->client->spawn++;
	}
}

/* Processes for any program: how many are used up, and how many are left. */
static void count_places(unsigned *spent, unsigned *left)
{
	*spent = *left = 0;
	for (int i = 2; i <= doord.places; i++)
		if (strcmp(doord.place[i].program, "*") == 0 && doord.place[i].parent == 0)
			(*(doord.place[i].is_spent ? spent : left))++;
}

/* A program has come. Those that made doors and have ended used up their processes: that few are left is said before none is. */
void see_places_left(void)
{
	static bool is_told;
	unsigned spent, left;

	count_places(&spent, &left);
	if (is_told || spent == 0 || left > FEW_LEFT || spent < left)
		return;
	is_told = true;
	complain("%u processes of the kernel are used up by programs that made doors and have ended, and %u are left; -b '*=1,1,0' makes more that are smaller",
		spent, left);
}

/* A program finds no process. */
void no_place(const char *program)
{
	unsigned spent, left;

	if (!is_news(program))
		return;
	count_places(&spent, &left);
	if (spent > 0)
		complain("%s: EAGAIN: no process of the kernel is free for it; -b %s=THREADS,SPARES,CHILDREN keeps one (%u are used up by programs that made doors and have ended)",
			program, program, spent);
	else
		complain("%s: EAGAIN: no process of the kernel is free for it; -b %s=THREADS,SPARES,CHILDREN keeps one", program, program);
}

/* Somebody was told EAGAIN for want of this. It is said once of a place. */
void place_full(int number, const char *what)
{
	struct place *place = &doord.place[number];

	if (!place->is_full_told)
		complain("%s: EAGAIN: all %s that it has are in use; -b %s=THREADS,SPARES,CHILDREN gives it more", place->name, what, place->occupant);
	place->is_full_told = true;
}

/* A call waits in the common pool of this process: where no thread is there that could take it, that is said once. */
void see_that_served(int number)
{
	struct place *place = &doord.place[number];

	if (place->is_spent || place->is_unserved_told)
		return;
	for (int t = place->first; t <= place->last; t++) {
		const struct member *member = &doord.member[t];
		bool is_spare = member->kind == MEMBER_SPARE && member->life != MEMBER_SPENT;
		if (is_spare || member->waits_to_serve || member->in_service)
			return;
	}
	place->is_unserved_told = true;
	complain("%s: a call waits, and no server thread is left; -b %s=THREADS,SPARES,CHILDREN gives it some", place->name, place->occupant);
}
