/* doord_calls.c: door_call(3C), door_return(3C), and the ends of waits. */
#include "doord.h"

#include <errno.h>
#include <stdlib.h>
#include <string.h>
#include <unistd.h>

/* who may go on */

static int ready[DOORD_MEMBERS + 1];
static unsigned ready_first, ready_count;

void set_ready(int member)
{
	if (doord.member[member].is_ready)
		return;
	doord.member[member].is_ready = true;
	ready[(ready_first + ready_count++) % (DOORD_MEMBERS + 1)] = member;
}

static int next_ready(void)
{
	int member = ready[ready_first];

	ready_first = (ready_first + 1) % (DOORD_MEMBERS + 1);
	ready_count--;
	doord.member[member].is_ready = false;
	return member;
}

/* calls that wait in a pool */

static unsigned *pool_of(struct object *door)
{
	return door->attributes & KERNEL_ATTRIBUTE_PRIVATE ? &door->waiting : &doord.place[door->place].waiting;
}

static int member_calling(uint64_t call)
{
	for (int t = 2; t <= doord.members; t++)
		if (doord.member[t].calls != 0 && doord.member[t].calls == call)
			return t;
	return 0;
}

/* The call of this thread has left its pool. */
static void left_pool(struct member *member)
{
	if (!member->is_accepted)
		(*pool_of(member->called))--;
	member->is_accepted = true;
}

/* The call of this thread is over. */
void forget_call(struct member *member)
{
	if (member->calls == 0)
		return;
	left_pool(member);
	client_left(member->calls);
	member->calls = 0;
	doord.calling--;
	drop(member->called);
	member->called = NULL;
	drop_passage(&member->sent);
	drop_passage(&member->results);
}

/* Of the call that the slot asks for, whose descriptor may have been closed while it was held back. */
static bool is_pool_full(struct slot *slot, int place)
{
	see_descriptor(slot);
	struct object *door = row_of(place, slot->request.a);

	return !doord.options.eagain && door && door->is_door && *pool_of(door) >= DOORD_QUEUE;
}

/* The kernel would refuse the call; it waits here until the pool has room, and nobody can tell that it did not come later. */
void hold_back(struct slot *slot)
{
	if (doord.held_count == doord.held_room) {
		size_t room = doord.held_room ? 2 * doord.held_room : 64;
		struct slot **held = realloc(doord.held, room * sizeof *held);
		if (!held)
			fail("there is no memory");
		doord.held = held;
		doord.held_room = room;
	}
	slot->is_held = true;
	doord.held[doord.held_count++] = slot;
}

void let_go(struct slot *slot)
{
	for (size_t i = 0; i < doord.held_count; i++)
		if (doord.held[i] == slot) {
			memmove(doord.held + i, doord.held + i + 1, (--doord.held_count - i) * sizeof *doord.held);
			break;
		}
	slot->is_held = false;
}

static bool let_one_go(void)
{
	for (size_t i = 0; i < doord.held_count; i++) {
		struct slot *slot = doord.held[i];
		if (!is_pool_full(slot, slot->client->place)) {
			let_go(slot);
			ask_call(slot, slot->member);
			return true;
		}
	}
	return false;
}

/* descriptors that are passed */

/* For an ordinary file a port of the sender stands, which is released with the message. */
static bool make_port(int member, int file, uint64_t *item)
{
	struct asked create = { .op = KERNEL_OP_PORT_CREATE };

	if (!enter_kernel(member, &create) || answer.kind != KERNEL_ANSWER_DESCRIPTOR)
		return false;
	struct object *object = new_object();
	object->file = file;
	set_row(doord.member[member].place, answer.number[0], object);
	*item = answer.number[0] | WIRE_RELEASE;
	return true;
}

static void undo_items(struct slot *slot, int member, const uint64_t *item, unsigned made)
{
	for (unsigned i = 0; i < made; i++)
		if (slot->request.item[i] & WIRE_FILE)
			close_row(member, item[i] & UINT32_MAX);
}

/* A door's descriptor, or none where it was closed meanwhile. */
static uint64_t item_for(const struct client *client, uint64_t asked)
{
	uint32_t row = (uint32_t)asked;
	bool is_there = stands_for(client, row, (uint32_t)(asked >> WIRE_PIPE), UINT32_MAX >> (WIRE_PIPE - 32));

	return (is_there ? row : WIRE_NO_FD) | (asked & WIRE_RELEASE);
}

/*
 * What the kernel gets for the items of a request, and for bytes that go beside it. Where that fails the request is
 * answered, and nothing is left of it.
 */
static bool make_items(struct slot *slot, int member, uint64_t *item, struct object **beside)
{
	const struct wire_request *asked = &slot->request;
	int file[WIRE_ITEMS];
	unsigned taken = (asked->flags & WIRE_BESIDE) != 0;
	int missing = take_parcel(slot, file, asked->files);

	*beside = NULL;
	if (missing != 0) {
		reply_error(slot, missing);
		return false;
	}
	int wrong = taken > 0 ? put_beside(slot, file[0], beside) : 0;
	if (wrong != 0) {
		close_files(file + taken, asked->files - taken);
		reply_error(slot, wrong);
		return false;
	}
	for (unsigned i = 0; i < asked->items; i++) {
		if (!(asked->item[i] & WIRE_FILE)) {
			item[i] = item_for(slot->client, asked->item[i]);
		} else if (make_port(member, file[taken], &item[i])) {
			taken++;
		} else {
			int error = host_error(answer.number[0]);
			close_files(file + taken, asked->files - taken);
			undo_items(slot, member, item, i);
			drop(*beside);
			reply_error(slot, error);
			return false;
		}
	}
	return true;
}

/* Whether each of them is open, and none is passed twice where it is released: what the kernel asks of them, too. */
static bool are_sound(int place, const uint64_t *item, unsigned items)
{
	for (unsigned i = 0; i < items; i++) {
		if (!row_of(place, item[i] & UINT32_MAX))
			return false;
		for (unsigned k = 0; k < i; k++)
			if ((item[i] & UINT32_MAX) == (item[k] & UINT32_MAX) && ((item[i] | item[k]) & WIRE_RELEASE))
				return false;
	}
	return true;
}

/* They are on their way. */
static void send_items(int place, const uint64_t *item, unsigned items, struct passage *passage)
{
	drop_passage(passage);
	for (unsigned i = 0; i < items; i++) {
		struct object *object = row_of(place, item[i] & UINT32_MAX);
		if (!object)
			continue;
		hold(object);
		passage->object[passage->count++] = object;
	}
	for (unsigned i = 0; i < items; i++)
		if (item[i] & WIRE_RELEASE)
			clear_row(place, item[i] & UINT32_MAX);
}

static bool is_any_released(const struct slot *slot)
{
	for (unsigned i = 0; i < slot->request.items; i++)
		if (slot->request.item[i] & WIRE_RELEASE)
			return true;
	return false;
}

/* What the program released it closes before the message is waited for. */
static void tell_taken(struct slot *slot, uint64_t kind)
{
	if (is_any_released(slot) || (slot->request.flags & WIRE_TELLS_TAKEN))
		begin_reply(slot, kind)->flags = WIRE_TAKEN;
}

/* calls and returns */

static struct asked message_of(const struct slot *slot, uint32_t op, const uint64_t *item)
{
	const struct wire_request *request = &slot->request;
	struct asked asked = { .op = op, .a = request->a, .c = request->c, .data = request->data, .data_size = request->data_size, .item = item, .items = request->items };

	return asked;
}

/* Nothing is left of a call or a return that was refused. */
static void refuse(struct slot *slot, int member, const uint64_t *item, struct object *beside, int error)
{
	undo_items(slot, member, item, slot->request.items);
	drop(beside);
	reply_error(slot, error);
}

void ask_call(struct slot *slot, int number)
{
	struct member *member = &doord.member[number];
	uint64_t item[WIRE_ITEMS];
	struct object *beside;

	if (is_pool_full(slot, member->place)) {
		hold_back(slot);
		return;
	}
	if (!make_items(slot, number, item, &beside))
		return;
	struct object *door = row_of(member->place, slot->request.a);
	if (is_refused_beside(slot, door, beside)) {
		refuse(slot, number, item, beside, ENOBUFS);
		return;
	}
	if (beside)
		pad_beside(slot, door);
	struct asked asked = message_of(slot, KERNEL_OP_CALL, item);
	enter_kernel(number, &asked);
	if (answer.kind != KERNEL_ANSWER_WAIT_CALL || !door) {
		int error = host_error(answer.number[0]);
		if (error == EAGAIN)
			tell_limit(member->place, LIMIT_QUEUE);
		refuse(slot, number, item, beside, error);
		return;
	}
	member->calls = (uint32_t)answer.number[0];
	doord.calling++;
	member->called = door;
	member->is_accepted = false;
	hold(door);
	(*pool_of(door))++;
	if (!(door->attributes & KERNEL_ATTRIBUTE_PRIVATE))
		see_that_served(door->place);
	send_items(member->place, item, slot->request.items, &member->sent);
	member->sent.beside = beside;
	tell_taken(slot, KERNEL_ANSWER_WAIT_CALL);
}

/* The results go to the caller, where one waits for them. */
static void send_results(struct member *server, const struct slot *slot, const uint64_t *item, struct object *beside)
{
	struct passage passage = { 0 };
	int caller = server->serves ? member_calling(server->serves) : 0;

	send_items(server->place, item, slot->request.items, &passage);
	passage.beside = beside;
	if (caller) {
		drop_passage(&doord.member[caller].results);
		doord.member[caller].results = passage;
	} else {
		drop_passage(&passage);
	}
	server->serves = 0;
	server->in_service = false;
	forget_left(server);
}

void ask_return(struct slot *slot, int number)
{
	struct member *member = &doord.member[number];
	uint64_t item[WIRE_ITEMS];
	struct object *beside;

	if (!make_items(slot, number, item, &beside))
		return;
	bool sound = are_sound(member->place, item, slot->request.items);
	struct asked asked = message_of(slot, KERNEL_OP_RETURN, item);
	bool taken = enter_kernel(number, &asked);
	if (answer.kind == KERNEL_ANSWER_WAIT) {
		send_results(member, slot, item, beside);
		member->waits_to_serve = true;
		tell_taken(slot, KERNEL_ANSWER_WAIT);
		/* a thread that is given what was queued already is not among the woken */
		if (slot->is_busy && can_go_on(number))
			set_ready(number);
		return;
	}
	int error = host_error(answer.number[0]);
	/* the door that the thread is bound to is invalid: the results went out all the same */
	if (taken && error == EINVAL && sound) {
		send_results(member, slot, item, beside);
		drop(member->bound);
		member->bound = NULL;
		struct wire_reply *reply = begin_reply(slot, KERNEL_ANSWER_FAILURE);
		reply->error = EINVAL;
		reply->flags = is_any_released(slot) ? WIRE_TAKEN : 0;
		return;
	}
	refuse(slot, number, item, beside, error);
}

/* The program has closed what it released. */
void ask_wait(struct slot *slot, int number)
{
	struct member *member = &doord.member[number];

	if (number == 0 || (member->calls == 0 && !member->waits_to_serve))
		reply_error(slot, EINVAL);
	else if (can_go_on(number))
		set_ready(number);
}

/* ends of waits */

/* Bytes that went beside the kernel: the file of them is the reply's first. */
static void receive_beside(struct slot *slot, struct wire_reply *reply, struct object *beside)
{
	if (!beside || beside->file < 0)
		return;
	slot->file[slot->files++] = beside->file;
	beside->file = -1;
	reply->flags |= WIRE_BESIDE;
}

/* Descriptors that came: files are taken out of the kernel at once, since their receiver has them from here. */
static void receive_items(int number, struct wire_reply *reply, struct passage *passage)
{
	struct member *member = &doord.member[number];
	unsigned count = answer.items < WIRE_PASSED ? (unsigned)answer.items : WIRE_PASSED;
	uint64_t fd[WIRE_PASSED];

	memcpy(fd, answer.item, count * sizeof *fd);
	if (reply)
		receive_beside(member->slot, reply, passage->beside);
	for (unsigned i = 0; i < count && i < passage->count; i++) {
		struct object *object = passage->object[i];
		struct wire_passed *passed = reply ? &reply->item[i] : NULL;
		set_row(member->place, fd[i], object);
		bool is_local = object->is_door && object->place == member->place;
		if (passed && (object->is_door || object->is_port)) {
			passed->fd = (uint32_t)fd[i];
			passed->attributes = object->attributes | (is_local ? KERNEL_ATTRIBUTE_LOCAL : 0);
			passed->id = object->number;
			expect_stand_in(member->slot->client, fd[i]);
		}
		if (object->is_door || object->is_port)
			continue;
		if (passed && object->file >= 0) {
			passed->fd = WIRE_NO_FD;
			member->slot->file[member->slot->files++] = object->file;
			object->file = -1;
		}
		close_row(number, fd[i]);
	}
	if (reply) {
		reply->passed = count;
		reply->files = member->slot->files;
	}
	drop_passage(passage);
}

static struct wire_reply *reply_with_data(struct member *member)
{
	if (!member->slot)
		return NULL;
	struct wire_reply *reply = begin_reply(member->slot, answer.kind);
	reply->data_size = (uint32_t)answer.data_size;
	memcpy(reply->data, answer.data, answer.data_size);
	return reply;
}

/* Whether no other thread waits for calls of the private door to which this one is bound. */
static bool is_pool_empty(const struct member *server)
{
	for (int t = 2; t <= doord.members && server->bound; t++)
		if (doord.member[t].waits_to_serve && doord.member[t].bound == server->bound)
			return false;
	return server->bound != NULL;
}

static void accepted(int number)
{
	struct member *member = &doord.member[number];
	bool is_call = answer.kind == KERNEL_ANSWER_ENTERED;
	int caller = is_call ? member_calling(answer.number[0]) : 0;
	uint32_t door = (uint32_t)answer.number[2];
	struct passage nothing = { 0 };
	struct wire_reply *reply = reply_with_data(member);

	member->waits_to_serve = false;
	member->in_service = true;
	member->serves = is_call ? (uint32_t)answer.number[0] : 0;
	if (reply) {
		member->invocation = reply->number;
		reply->b = door;
		reply->flags = is_pool_empty(member) ? WIRE_POOL : 0;
	}
	if (caller)
		left_pool(&doord.member[caller]);
	receive_items(number, reply, caller ? &doord.member[caller].sent : &nothing);
}

static void collected(int number)
{
	struct member *member = &doord.member[number];
	struct wire_reply *reply = reply_with_data(member);

	receive_items(number, reply, &member->results);
	forget_call(member);
}

/* A wait that failed: of a call, at a port, or of a server thread whose private door is invalid. */
static void failed(int number)
{
	struct member *member = &doord.member[number];
	int error = host_error(answer.number[0]);

	if (member->calls) {
		forget_call(member);
	} else if (member->waits_to_serve) {
		member->waits_to_serve = false;
		drop(member->bound);
		member->bound = NULL;
	}
	member->gets = false;
	if (member->slot)
		reply_error(member->slot, error);
}

/* The descriptors of a call found no room: the call is over, and the thread waits for another. */
static void enter_failed(int number)
{
	int caller = member_calling(answer.number[0]);

	if (caller) {
		left_pool(&doord.member[caller]);
		drop_passage(&doord.member[caller].sent);
	}
	if (can_go_on(number))
		set_ready(number);
}

void go_on(int number)
{
	struct member *member = &doord.member[number];

	if (!end_wait(number))
		return;
	switch (answer.kind) {
	case KERNEL_ANSWER_ENTERED:
	case KERNEL_ANSWER_NOTICE:
		accepted(number);
		break;
	case KERNEL_ANSWER_ENTER_FAILED:
		enter_failed(number);
		break;
	case KERNEL_ANSWER_RESULTS:
		collected(number);
		break;
	case KERNEL_ANSWER_FAILURE:
		failed(number);
		break;
	case KERNEL_ANSWER_EVENT:
	case KERNEL_ANSWER_EVENTS:
		member->gets = false;
		if (member->slot)
			tell_events(member->slot);
		break;
	default:
		member->awaits = false;
		if (member->slot)
			begin_reply(member->slot, answer.kind);
	}
}

/* Who can go on does, until nobody can. */
void settle(void)
{
	do {
		while (ready_count > 0 && !doord.is_full) {
			int number = next_ready();
			struct member *member = &doord.member[number];
			if (is_waiting(member) && member->slot && member->slot->is_busy && can_go_on(number))
				go_on(number);
		}
	} while (!doord.is_full && let_one_go());
	ask_left();
}

/* A signal's handler is to run in a thread that waits in a call or at a port, or its time is over: init interrupts it. */
void interrupt_slot(struct slot *slot)
{
	struct member *member = &doord.member[slot->member];
	struct asked interrupt = { .op = KERNEL_OP_INTERRUPT, .a = (uint32_t)slot->member };

	if (slot->is_held) {
		let_go(slot);
		reply_error(slot, EINTR);
	} else if (slot->member && (member->calls || member->gets)) {
		enter_kernel(1, &interrupt);
		set_ready(slot->member);
		settle();
	}
}
