/* doord_requests.c: what programs ask, and what they are told. */
#include "doord.h"

#include <errno.h>
#include <limits.h>
#include <linux/futex.h>
#include <stdlib.h>
#include <string.h>
#include <sys/syscall.h>
#include <unistd.h>

/* procedures, by the numbers that the kernel has for them */
static struct {
	int place;
	char name[DOORD_NAME];
} procedure[DOORD_PLACES * DOORD_PROCEDURES];
static unsigned procedures;

/* replies */

static void queue_reply(struct slot *slot)
{
	if (doord.replied_count == doord.replied_room) {
		size_t room = doord.replied_room ? 2 * doord.replied_room : 64;
		struct slot **replied = realloc(doord.replied, room * sizeof *replied);
		if (!replied)
			fail("there is no memory");
		doord.replied = replied;
		doord.replied_room = room;
	}
	doord.replied[doord.replied_count++] = slot;
	slot->is_replied = true;
	slot->is_busy = false;
}

/* A reply in the slot's page. It is handed over once the history is written. */
struct wire_reply *begin_reply(struct slot *slot, uint64_t kind)
{
	struct wire_reply *reply = &slot->client->area->slot[slot->index].reply;

	memset(reply, 0, offsetof(struct wire_reply, data));
	reply->number = slot->request.number;
	reply->kind = (uint32_t)kind;
	reply->spawn = slot->client->spawn;
	slot->client->spawn = 0;
	slot->files = 0;
	queue_reply(slot);
	return reply;
}

void reply_error(struct slot *slot, int error)
{
	if (error == EMFILE)
		tell_limit(slot->client->place, LIMIT_ROWS);
	begin_reply(slot, KERNEL_ANSWER_FAILURE)->error = (uint32_t)error;
}

static void wake(_Atomic uint32_t *turn)
{
	if (atomic_exchange(turn, WIRE_TOLD) == WIRE_ASLEEP)
		syscall(SYS_futex, turn, FUTEX_WAKE, INT_MAX, NULL, NULL, 0);
}

/* All that was answered goes out, after the lines that tell of it. */
void hand_over(void)
{
	write_history();
	tell_left();
	for (size_t i = 0; i < doord.replied_count; i++) {
		struct slot *slot = doord.replied[i];
		slot->is_replied = false;
		if (slot->client->is_gone)
			continue;
		if (slot->files > 0) {
			send_files(slot);
			/* where that ended the program, others were answered by it */
			write_history();
			if (slot->client->is_gone)
				continue;
		}
		wake(&slot->client->area->slot[slot->index].turn);
	}
	doord.replied_count = 0;
}

/* simple requests */

/* Those whose answer comes at once, and of which nothing else follows than what `follow` does. */
static bool is_immediate(const struct wire_request *request)
{
	uint32_t op = request->op;
	bool gets = op == KERNEL_OP_GET || op == KERNEL_OP_GET_MANY;

	if (gets)
		return !(request->flags & WIRE_WAITS);
	return op != KERNEL_OP_CALL && op != KERNEL_OP_RETURN && op != KERNEL_OP_AWAIT && op != WIRE_WAIT;
}

static bool is_simple(uint32_t op)
{
	switch (op) {
	case KERNEL_OP_REVOKE:
	case KERNEL_OP_BIND:
	case KERNEL_OP_UNBIND:
	case KERNEL_OP_INFO:
	case KERNEL_OP_INFO_QUERY:
	case KERNEL_OP_GET_PARAMETER:
	case KERNEL_OP_SET_PARAMETER:
	case KERNEL_OP_CREDENTIALS:
	case KERNEL_OP_CLOSE:
	case KERNEL_OP_DUPLICATE:
		return true;
	default:
		return false;
	}
}

/* A new descriptor, for which the program makes a stand-in. */
void tell_descriptor(struct slot *slot, struct wire_reply *reply)
{
	reply->a = (uint32_t)answer.number[0];
	expect_stand_in(slot->client, answer.number[0]);
}

/* One that another thread of the program has closed meanwhile is none, whatever has its number now. */
void see_descriptor(struct slot *slot)
{
	struct wire_request *request = &slot->request;

	if (!stands_for(slot->client, request->a, (uint32_t)request->d, UINT32_MAX))
		request->a = WIRE_NO_FD;
}

static void tell_info(struct wire_reply *reply, const struct object *door)
{
	struct client *target = answer.number[0] ? doord.place[answer.number[0]].client : NULL;

	reply->a = target ? (uint32_t)target->pid : 0;
	reply->b = (uint32_t)answer.number[3];
	reply->c = door ? door->procedure : 0;
	reply->d = door ? door->cookie : 0;
	reply->e = answer.number[4];
}

static void tell_client(struct wire_reply *reply)
{
	const struct client *client = doord.place[answer.number[0]].client;

	if (!client)
		return;
	reply->a = (uint32_t)client->pid;
	reply->b = client->euid;
	reply->c = client->ruid;
	reply->d = client->egid;
	reply->e = client->rgid;
}

/* What the answer of a simple request changes here. */
static void follow(struct member *member, const struct wire_request *request)
{
	struct object *object = row_of(member->place, request->a);

	if (answer.kind == KERNEL_ANSWER_FAILURE)
		return;
	if (request->op == KERNEL_OP_CLOSE) {
		clear_row(member->place, request->a);
	} else if (request->op == KERNEL_OP_REVOKE) {
		if (object)
			object->is_revoked = true;
		clear_row(member->place, request->a);
		tell_validity();
	} else if (request->op == KERNEL_OP_SET_PARAMETER && object) {
		follow_parameter(request, object);
	} else if (request->op == KERNEL_OP_DUPLICATE && object) {
		set_row(member->place, answer.number[0], object);
	} else if (request->op == KERNEL_OP_BIND && object) {
		hold(object);
		drop(member->bound);
		member->bound = object;
	} else if (request->op == KERNEL_OP_UNBIND) {
		drop(member->bound);
		member->bound = NULL;
	}
}

static void ask_simple(struct slot *slot, int number)
{
	struct member *member = &doord.member[number];
	const struct wire_request *request = &slot->request;

	see_descriptor(slot);
	struct asked asked = { .op = request->op, .a = request->a, .b = request->b, .c = request->c };
	struct object *door = request->op == KERNEL_OP_INFO_QUERY ? member->bound : row_of(member->place, request->a);

	ask_parameter_beside(&asked, member, door);
	enter_kernel(number, &asked);
	struct wire_reply *reply = begin_reply(slot, answer.kind);
	switch (answer.kind) {
	case KERNEL_ANSWER_FAILURE:
		reply->error = (uint32_t)host_error(answer.number[0]);
		if (answer.number[0] == KERNEL_ERROR_EMFILE)
			tell_limit(member->place, LIMIT_ROWS);
		break;
	case KERNEL_ANSWER_DESCRIPTOR:
		tell_descriptor(slot, reply);
		break;
	case KERNEL_ANSWER_PARAMETER:
		reply->c = answer.number[0];
		tell_parameter(reply, request, door);
		break;
	case KERNEL_ANSWER_INFO:
		tell_info(reply, door);
		break;
	case KERNEL_ANSWER_CLIENT:
		tell_client(reply);
		break;
	default:
		break;
	}
	follow(member, request);
}

/* door_create(3C) */

static bool is_name(const char *name)
{
	if (*name < 'a' || *name > 'z')
		return false;
	for (; *name; name++)
		if (!((*name >= 'a' && *name <= 'z') || (*name >= '0' && *name <= '9') || *name == '_'))
			return false;
	return true;
}

/* The letters of a procedure's name, as the history has them. */
static void spell_procedure(const struct wire_request *request, char *name)
{
	size_t n = 0;

	for (; n < request->data_size && n < DOORD_NAME - 1; n++) {
		char c = (char)request->data[n];
		if (c >= 'A' && c <= 'Z')
			c = (char)(c - 'A' + 'a');
		name[n] = (c >= 'a' && c <= 'z') || (c >= '0' && c <= '9') ? c : '_';
	}
	name[n] = 0;
	if (!is_name(name))
		snprintf(name, DOORD_NAME, "proc%u", (unsigned)(request->b % 100000));
}

/* The kernel's number of a procedure. Of one process 64 have names; the others go by the name of the last. */
static unsigned find_procedure(int number, const char *name)
{
	struct place *place = &doord.place[number];
	unsigned last = 0;

	for (unsigned i = 0; i < procedures; i++)
		if (procedure[i].place == number) {
			last = i;
			if (strcmp(procedure[i].name, name) == 0)
				return i;
		}
	if (place->procedures == DOORD_PROCEDURES) {
		tell_limit(number, LIMIT_PROCEDURES);
		return last;
	}
	if (!declare("proc %s of %s", name, place->name))
		fail("no name for the procedure %s", name);
	place->procedures++;
	procedure[procedures].place = number;
	snprintf(procedure[procedures].name, DOORD_NAME, "%s", name);
	return procedures++;
}

static void ask_create(struct slot *slot, int number)
{
	struct member *member = &doord.member[number];
	const struct wire_request *request = &slot->request;
	char name[DOORD_NAME];

	spell_procedure(request, name);
	struct asked asked = { .op = KERNEL_OP_CREATE, .a = find_procedure(member->place, name), .b = request->a, .c = request->b };
	enter_kernel(number, &asked);
	if (answer.kind != KERNEL_ANSWER_DESCRIPTOR) {
		reply_error(slot, host_error(answer.number[0]));
		return;
	}
	struct object *door = new_object();
	door->is_door = true;
	door->place = member->place;
	door->attributes = request->a;
	door->most = UINT64_MAX;
	door->number = ++doord.doors;
	door->procedure = request->c;
	door->cookie = request->d;
	set_row(member->place, answer.number[0], door);
	doord.place[member->place].doors++;
	tell_descriptor(slot, begin_reply(slot, KERNEL_ANSWER_DESCRIPTOR));
}

/* the end of a thread */

static void leave(struct slot *slot)
{
	struct member *member = &doord.member[slot->member];

	if (slot->member == 0) {
		begin_reply(slot, KERNEL_ANSWER_DONE);
		return;
	}
	if (is_waiting(member)) {
		reply_error(slot, EBUSY);
		return;
	}
	int number = slot->member;
	begin_reply(slot, KERNEL_ANSWER_DONE);
	if (member->in_service) {
		/* its client is told */
		struct asked end = { .op = KERNEL_OP_EXIT };
		enter_kernel(number, &end);
		store_member(number);
		member->life = MEMBER_SPENT;
		member->in_service = false;
		forget_left(member);
		drop(member->bound);
		member->bound = NULL;
		return;
	}
	unbind_member(number);
	store_member(number);
}

/* A thread that goes back is bound to nothing. */
void unbind_member(int number)
{
	struct member *member = &doord.member[number];
	struct asked unbind = { .op = KERNEL_OP_UNBIND };

	if (!member->bound)
		return;
	enter_kernel(number, &unbind);
	drop(member->bound);
	member->bound = NULL;
}

/* Requests on ports, timers and what is associated; all else there is none of. */
static void ask_by_port(struct slot *slot, int member)
{
	switch (slot->request.op) {
	case KERNEL_OP_PORT_CREATE:
		ask_port_create(slot, member);
		break;
	case KERNEL_OP_SEND:
	case KERNEL_OP_ALERT:
		ask_send(slot, member);
		break;
	case KERNEL_OP_SEND_MANY:
		ask_send_many(slot, member);
		break;
	case KERNEL_OP_GET:
	case KERNEL_OP_GET_MANY:
		ask_get(slot, member);
		break;
	case KERNEL_OP_TIMER_CREATE:
	case KERNEL_OP_TIMER_SET:
	case KERNEL_OP_TIMER_DELETE:
		ask_timer(slot, member);
		break;
	case KERNEL_OP_ASSOCIATE:
		ask_associate(slot, member);
		break;
	case KERNEL_OP_DISSOCIATE:
		ask_dissociate(slot, member);
		break;
	default:
		reply_error(slot, ENOTSUP);
	}
}

/* all requests */

static void ask_by(struct slot *slot, int member)
{
	switch (slot->request.op) {
	case KERNEL_OP_CREATE:
		ask_create(slot, member);
		break;
	case KERNEL_OP_CALL:
		ask_call(slot, member);
		break;
	case KERNEL_OP_RETURN:
		ask_return(slot, member);
		break;
	case WIRE_WAIT:
		ask_wait(slot, member);
		break;
	case KERNEL_OP_ATTACH:
		ask_attach(slot, member);
		break;
	case KERNEL_OP_DETACH:
		ask_detach(slot, member);
		break;
	case KERNEL_OP_OPEN:
		ask_open(slot, member);
		break;
	case KERNEL_OP_AWAIT:
		ask_await(slot, member);
		break;
	case KERNEL_OP_FORK:
		ask_fork(slot, member);
		break;
	default:
		if (is_simple(slot->request.op))
			ask_simple(slot, member);
		else
			ask_by_port(slot, member);
	}
}

/* Those that speak of the very thread that asks. */
static bool is_of_thread(uint32_t op)
{
	return op == KERNEL_OP_BIND || op == KERNEL_OP_UNBIND || op == KERNEL_OP_INFO_QUERY || op == KERNEL_OP_CREDENTIALS;
}

/* The thread of the kernel that asks. The keeper does where the program's own thread has none, or waits. */
static int member_for(struct slot *slot)
{
	const struct wire_request *request = &slot->request;
	int keeper = doord.place[slot->client->place].keeper;
	bool immediate = is_immediate(request) && !is_of_thread(request->op);

	if ((request->flags & WIRE_KEEPER) && immediate)
		return keeper;
	int number = slot->member ? slot->member : lend_member(slot, request->op == KERNEL_OP_RETURN);
	if (number == 0)
		return immediate ? keeper : 0;
	const struct member *member = &doord.member[number];
	return is_waiting(member) && request->op != WIRE_WAIT && immediate ? keeper : number;
}

void answer_request(struct slot *slot)
{
	uint32_t op = slot->request.op;

	if (op == WIRE_LEAVE) {
		leave(slot);
	} else if (op == WIRE_FORK_FAILED) {
		fork_failed(slot);
	} else if (op == WIRE_READY) {
		ask_ready(slot);
	} else if (op == WIRE_FORGET) {
		ask_forget(slot);
	} else {
		int member = member_for(slot);
		if (member == 0) {
			place_full(slot->client->place, "threads");
			reply_error(slot, EAGAIN);
		} else {
			ask_by(slot, member);
		}
	}
}

/* A program may change the page while it is read, so the copy is what counts. */
static bool copy_request(struct slot *slot)
{
	const struct wire_request *from = &slot->client->area->slot[slot->index].request;
	struct wire_request *to = &slot->request;
	unsigned files = 0;

	memcpy(to, from, offsetof(struct wire_request, item));
	/* from here on nothing of this is read from the page again */
	atomic_signal_fence(memory_order_seq_cst);
	if (to->data_size > WIRE_DATA || to->items > WIRE_ITEMS || to->files > WIRE_ITEMS) {
		to->items = to->data_size = to->files = 0;
		return false;
	}
	memcpy(to->item, from->item, to->items * sizeof *to->item);
	memcpy(to->data, from->data, to->data_size);
	files += (to->flags & WIRE_BESIDE) != 0;
	for (unsigned i = 0; i < to->items; i++)
		files += (to->item[i] & WIRE_FILE) != 0;
	return files == to->files || to->op == KERNEL_OP_ATTACH;
}

/* What a request speaks of was sent before its turn came. Its bit may have been set earlier, by the end of the request before. */
static void take_slot(struct client *client, unsigned index)
{
	struct slot *slot = &client->slot[index];
	struct wire_slot *page = &client->area->slot[index];
	uint32_t turn = atomic_load(&page->turn);

	if (!slot->is_busy && !slot->is_replied && (turn == WIRE_ASKED || turn == WIRE_ASLEEP)) {
		slot->is_busy = true;
		bool is_sound = copy_request(slot);
		if (slot->request.files > 0 || client->expected > 0)
			take_messages(client);
		if (client->is_gone)
			return;
		if (is_sound)
			answer_request(slot);
		else
			reply_error(slot, EINVAL);
		settle();
	}
	if (slot->is_busy && slot->request.number != 0 && atomic_load(&page->interrupted) == slot->request.number)
		interrupt_slot(slot);
}

void take_requests(struct client *client)
{
	for (unsigned word = 0; word < WIRE_SLOT_WORDS && !client->is_gone; word++) {
		uint64_t asked = atomic_exchange(&client->area->asked[word], 0);
		for (unsigned bit = 0; asked; bit++, asked >>= 1)
			if ((asked & 1) && !client->is_gone && !doord.is_full)
				take_slot(client, word * 64 + bit);
	}
}
