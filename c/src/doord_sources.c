/*
 * doord_sources.c: port_associate(3C) and port_dissociate(3C), of descriptors of programs. The kernel knows nothing
 * of these: for each that is associated the process has a pipe in the kernel, whose reading end is the object of the
 * association. The program says when its descriptor is ready, and the keeper then writes a byte; it is read again
 * before the next association. So that an event comes once, in which order, and when it is withdrawn is the kernel's;
 * the bits of poll(2) are the program's word.
 */
#include "doord.h"

#include <errno.h>

static uint64_t serials;

/* The port has no descriptor any more, and none is on its way: its associations are over. */
static bool is_port_gone(const struct source *source)
{
	return source->port && source->port->holders == source->port->sources;
}

static void set_port(struct source *source, struct object *port)
{
	if (port) {
		hold(port);
		port->sources++;
	}
	if (source->port) {
		source->port->sources--;
		drop(source->port);
	}
	source->port = port;
}

/* Whether its pipe is there, with both ends. */
static bool has_pipe(int place, const struct source *source)
{
	return source->reader && row_of(place, source->read) == source->reader
		&& row_of(place, source->write) == source->writer;
}

static bool make_pipe(int place, struct source *source)
{
	struct asked asked = { .op = KERNEL_OP_PIPE };

	if (!enter_kernel(doord.place[place].keeper, &asked) || answer.kind != KERNEL_ANSWER_DESCRIPTORS)
		return false;
	struct object **end[] = { &source->reader, &source->writer };
	uint32_t *row[] = { &source->read, &source->write };
	for (unsigned i = 0; i < 2; i++) {
		drop(*end[i]);
		*end[i] = new_object();
		(*end[i])->is_pipe = true;
		hold(*end[i]);
		*row[i] = (uint32_t)answer.number[i];
		set_row(place, *row[i], *end[i]);
	}
	source->is_ready = source->is_associated = false;
	return true;
}

/* What says that the descriptor is ready is taken back. */
static void empty_pipe(int place, struct source *source)
{
	struct asked asked = { .op = KERNEL_OP_READ, .a = source->read, .b = 1 };

	if (source->is_ready)
		enter_kernel(doord.place[place].keeper, &asked);
	source->is_ready = false;
}

static void make_ready(int place, struct source *source, uint32_t bits)
{
	struct asked asked = { .op = KERNEL_OP_WRITE, .a = source->write, .data = (const uint8_t *)"r", .data_size = 1 };

	source->bits = bits;
	source->is_ready = true;
	enter_kernel(doord.place[place].keeper, &asked);
}

/* This port's of this descriptor, or NULL. */
static struct source *find_source(int place, const struct object *port, uint32_t fd)
{
	for (unsigned i = 0; i < WIRE_SOURCES; i++) {
		struct source *source = &doord.place[place].source[i];
		if (source->port == port && source->fd == fd && has_pipe(place, source))
			return source;
	}
	return NULL;
}

/* One whose pipe nobody needs, or else one that has none yet, and then has; NULL where the process has no room. */
static struct source *free_source(int place)
{
	struct source *empty = NULL;

	for (unsigned i = 0; i < WIRE_SOURCES; i++) {
		struct source *source = &doord.place[place].source[i];
		if (!has_pipe(place, source))
			empty = empty ? empty : source;
		else if (!source->is_associated || is_port_gone(source))
			return source;
	}
	return empty && make_pipe(place, empty) ? empty : NULL;
}

/* The row of what stands for one of the kernel; WIRE_NO_FD for what does not. */
static uint32_t row_of_item(const struct slot *slot, unsigned i)
{
	uint64_t item = slot->request.item[i];
	uint32_t row = (uint32_t)item, pipe = (uint32_t)(item >> WIRE_PIPE);
	bool is_there = slot->request.items > i && stands_for(slot->client, row, pipe, UINT32_MAX >> (WIRE_PIPE - 32));

	return is_there ? row : WIRE_NO_FD;
}

static struct object *port_of(struct slot *slot, int place)
{
	see_descriptor(slot);
	struct object *port = row_of(place, slot->request.a);
	return port && port->is_port ? port : NULL;
}

void ask_associate(struct slot *slot, int number)
{
	const struct wire_request *request = &slot->request;
	int place = doord.member[number].place;
	struct object *port = port_of(slot, place);
	uint32_t row = row_of_item(slot, 1), bits = request->items > 0 ? (uint32_t)request->item[0] : 0;
	struct source *source = NULL;

	if (port && row == WIRE_NO_FD && request->b != WIRE_NO_FD) {
		source = find_source(place, port, request->b);
		source = source ? source : free_source(place);
		if (!source) {
			tell_limit(place, LIMIT_SOURCES);
			reply_error(slot, EAGAIN);
			return;
		}
		empty_pipe(place, source);
		row = source->read;
	}
	struct asked asked = { .op = KERNEL_OP_ASSOCIATE, .a = request->a, .b = row, .c = KERNEL_POLL_IN, .d = request->c };
	enter_kernel(number, &asked);
	if (answer.kind == KERNEL_ANSWER_FAILURE) {
		reply_error(slot, host_error(answer.number[0]));
		return;
	}
	struct wire_reply *reply = begin_reply(slot, answer.kind);
	reply->a = WIRE_NO_FD;
	if (!source)
		return;
	set_port(source, port);
	source->fd = request->b;
	source->is_associated = true;
	source->serial = ++serials;
	reply->a = (uint32_t)(source - doord.place[place].source);
	reply->c = source->serial;
	if (bits != 0)
		make_ready(place, source, bits);
}

void ask_dissociate(struct slot *slot, int number)
{
	const struct wire_request *request = &slot->request;
	int place = doord.member[number].place;
	struct object *port = port_of(slot, place);
	struct source *source = port ? find_source(place, port, request->b) : NULL;
	uint32_t row = row_of_item(slot, 0);

	/* an open one that has no pipe was never associated, as the port itself was not */
	if (row == WIRE_NO_FD && request->b != WIRE_NO_FD)
		row = source ? source->read : request->a;
	struct asked asked = { .op = KERNEL_OP_DISSOCIATE, .a = request->a, .b = row };
	enter_kernel(number, &asked);
	if (answer.kind == KERNEL_ANSWER_FAILURE) {
		reply_error(slot, host_error(answer.number[0]));
		return;
	}
	if (source)
		source->is_associated = false;
	begin_reply(slot, answer.kind);
}

/* The program says that a descriptor is ready. It may have been associated anew meanwhile, or not be any more. */
void ask_ready(struct slot *slot)
{
	const struct wire_request *request = &slot->request;
	int place = slot->client->place;
	struct source *source = request->a < WIRE_SOURCES ? &doord.place[place].source[request->a] : NULL;

	begin_reply(slot, KERNEL_ANSWER_DONE);
	if (source && source->serial == request->c && source->is_associated && !source->is_ready && has_pipe(place, source))
		make_ready(place, source, request->b);
}

/* Ends the association by whatever descriptor of the port the process has, or by closing the pipe. */
static void end_association(int place, struct source *source)
{
	int keeper = doord.place[place].keeper;
	struct asked asked = { .op = KERNEL_OP_DISSOCIATE, .b = source->read };

	source->is_associated = false;
	for (uint32_t row = 0; row < DOORD_ROWS; row++)
		if (doord.place[place].row[row] == source->port) {
			asked.a = row;
			enter_kernel(keeper, &asked);
			return;
		}
	close_row(keeper, source->read);
	close_row(keeper, source->write);
}

/* The program closes a descriptor: its associations end with it, and their events are withdrawn. */
void ask_forget(struct slot *slot)
{
	int place = slot->client->place;

	for (unsigned i = 0; i < WIRE_SOURCES; i++) {
		struct source *source = &doord.place[place].source[i];
		if (source->fd != slot->request.b || !has_pipe(place, source))
			continue;
		if (source->is_associated)
			end_association(place, source);
		source->fd = WIRE_NO_FD;
	}
	begin_reply(slot, KERNEL_ANSWER_DONE);
}

/* Whose event it is, of this process: what it says is in terms of the program. */
static bool is_told(int place, struct wire_event *event)
{
	for (unsigned i = 0; i < WIRE_SOURCES; i++) {
		struct source *source = &doord.place[place].source[i];
		if (!source->is_associated || !source->is_ready || source->read != event->object || !has_pipe(place, source))
			continue;
		source->is_associated = false;
		event->object = source->fd;
		event->events = source->bits;
		return true;
	}
	return false;
}

/* An event of a descriptor, which is of another process where that has the port as well. */
void tell_source(int place, struct wire_event *event)
{
	bool is_found = is_told(place, event);

	for (int i = 2; i <= doord.places && !is_found; i++)
		is_found = i != place && is_told(i, event);
}

/* The program has ended. */
void forget_sources(int place)
{
	for (unsigned i = 0; i < WIRE_SOURCES; i++) {
		struct source *source = &doord.place[place].source[i];
		set_port(source, NULL);
		drop(source->reader);
		drop(source->writer);
		*source = (struct source){ .fd = WIRE_NO_FD };
	}
}

/* A forked child has its parent's pipes, and no associations. */
void close_pipes(int child)
{
	struct place *place = &doord.place[child];

	for (unsigned fd = 0; fd < DOORD_ROWS; fd++)
		if (place->row[fd] && place->row[fd]->is_pipe)
			close_row(place->keeper, fd);
}
