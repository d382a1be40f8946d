/* doord_ports.c: event ports, port_create(3C), port_send(3C), port_alert(3C) and port_get(3C). */
#include "doord.h"

#include <errno.h>
#include <string.h>

enum { EVENT_WORDS = 4, SENT_AT_ONCE = 16 };

_Static_assert(64 * sizeof(struct wire_event) <= WIRE_REPLY, "the most events of a get have room in a reply");

void ask_port_create(struct slot *slot, int number)
{
	struct asked asked = { .op = KERNEL_OP_PORT_CREATE };

	enter_kernel(number, &asked);
	if (answer.kind != KERNEL_ANSWER_DESCRIPTOR) {
		reply_error(slot, host_error(answer.number[0]));
		return;
	}
	struct object *port = new_object();
	port->is_port = true;
	set_row(doord.member[number].place, answer.number[0], port);
	tell_descriptor(slot, begin_reply(slot, KERNEL_ANSWER_DESCRIPTOR));
}

/* What is done, or why not. */
static void reply_done(struct slot *slot)
{
	if (answer.kind == KERNEL_ANSWER_FAILURE)
		reply_error(slot, host_error(answer.number[0]));
	else
		begin_reply(slot, answer.kind);
}

/* port_send(3C), port_alert(3C) */
void ask_send(struct slot *slot, int number)
{
	const struct wire_request *request = &slot->request;
	struct asked asked = { .op = request->op, .b = request->b, .c = request->c };

	see_descriptor(slot);
	asked.a = request->a;
	if (request->op == KERNEL_OP_ALERT)
		asked.d = request->items > 0 && request->item[0] <= KERNEL_ALERT_UPDATE ? request->item[0] : KERNEL_ALERT_OTHER;
	enter_kernel(number, &asked);
	reply_done(slot);
}

/* port_sendn(3C), of as many ports as the kernel takes at once: the reply's data are their errors. */
void ask_send_many(struct slot *slot, int number)
{
	const struct wire_request *request = &slot->request;
	uint64_t item[WIRE_ITEMS];

	if (request->items == 0 || request->items > SENT_AT_ONCE) {
		reply_error(slot, EINVAL);
		return;
	}
	for (unsigned i = 0; i < request->items; i++) {
		uint32_t row = (uint32_t)request->item[i], pipe = (uint32_t)(request->item[i] >> WIRE_PIPE);
		item[i] = stands_for(slot->client, row, pipe, UINT32_MAX >> (WIRE_PIPE - 32)) ? row : WIRE_NO_FD;
	}
	struct asked asked = { .op = KERNEL_OP_SEND_MANY, .b = request->b, .c = request->c, .item = item };
	asked.items = request->items;
	enter_kernel(number, &asked);
	if (answer.kind != KERNEL_ANSWER_ERRORS) {
		reply_done(slot);
		return;
	}
	struct wire_reply *reply = begin_reply(slot, answer.kind);
	for (unsigned i = 0; i < request->items && i < answer.items; i++) {
		uint32_t error = answer.item[i] ? (uint32_t)host_error(answer.item[i]) : 0;
		memcpy(reply->data + i * sizeof error, &error, sizeof error);
	}
	reply->data_size = request->items * (uint32_t)sizeof(uint32_t);
}

/* The events of the last answer. */
void tell_events(struct slot *slot)
{
	struct wire_reply *reply = begin_reply(slot, answer.kind);
	unsigned count = (unsigned)(answer.items / EVENT_WORDS);

	for (unsigned i = 0; i < count; i++) {
		const uint64_t *word = answer.item + i * EVENT_WORDS;
		struct wire_event event = { (uint32_t)word[KERNEL_EVENT_SOURCE], (uint32_t)word[KERNEL_EVENT_EVENTS],
			word[KERNEL_EVENT_OBJECT], word[KERNEL_EVENT_USER] };
		if (event.source == KERNEL_SOURCE_DESCRIPTOR)
			tell_source(slot->client->place, &event);
		memcpy(reply->data + i * sizeof event, &event, sizeof event);
	}
	reply->data_size = count * (uint32_t)sizeof(struct wire_event);
}

/* port_get(3C), port_getn(3C) */
void ask_get(struct slot *slot, int number)
{
	const struct wire_request *request = &slot->request;
	bool waits = (request->flags & WIRE_WAITS) != 0;

	see_descriptor(slot);
	struct asked asked = { .op = request->op, .a = request->a, .b = waits };
	if (request->op == KERNEL_OP_GET_MANY) {
		asked.b = request->b;
		asked.c = request->c;
		asked.d = waits;
	}
	enter_kernel(number, &asked);
	switch (answer.kind) {
	case KERNEL_ANSWER_WAIT:
		doord.member[number].gets = true;
		break;
	case KERNEL_ANSWER_EVENT:
	case KERNEL_ANSWER_EVENTS:
		tell_events(slot);
		break;
	case KERNEL_ANSWER_AVAILABLE:
		begin_reply(slot, answer.kind)->a = (uint32_t)answer.number[0];
		break;
	default:
		reply_done(slot);
	}
}

/* Whether somebody waits at a port for a time, and then comes back by himself; or a timer may bring him back. */
bool is_any_timed(void)
{
	if (is_any_armed())
		return true;
	for (int t = 2; t <= doord.members; t++) {
		const struct member *member = &doord.member[t];
		if (member->gets && member->slot && (member->slot->request.flags & WIRE_TIMED))
			return true;
	}
	return false;
}
