/*
 * doord_cancel.c: servers whose clients have left. The kernel sets a flag of the invocation, unless the door has
 * no-cancel, and the server's own thread asks for it; where it is set the program is told, whose library then cancels
 * that thread.
 */
#include "doord.h"

#include <limits.h>
#include <linux/futex.h>
#include <sys/syscall.h>
#include <unistd.h>

/* whether there may be members with is_left, and with is_to_be_told */
static bool is_any_left, is_any_to_be_told;

/* This call is over. Who serves it still serves nobody from now on. */
void client_left(uint32_t call)
{
	for (int t = 2; t <= doord.members; t++) {
		struct member *server = &doord.member[t];
		if (server->in_service && server->serves == call)
			is_any_left = server->is_left = true;
	}
}

/* Its invocation is over. */
void forget_left(struct member *server)
{
	server->is_left = server->is_to_be_told = false;
}

/* A thread can ask only as long as it runs: one that waits in a call of its own does so afterwards. */
static bool runs(const struct member *member)
{
	return !is_waiting(member);
}

void ask_left(void)
{
	struct asked test = { .op = KERNEL_OP_TEST_CANCEL };
	bool was_any = is_any_left;

	is_any_left = false;
	for (int t = 2; t <= doord.members && was_any; t++) {
		struct member *server = &doord.member[t];
		if (!server->is_left)
			continue;
		if (doord.is_full || !runs(server)) {
			is_any_left = true;
			continue;
		}
		server->is_left = false;
		enter_kernel(t, &test);
		if (answer.kind == KERNEL_ANSWER_CANCEL && answer.number[0] != 0)
			is_any_to_be_told = server->is_to_be_told = true;
	}
}

/* The lines that tell of it are written. */
void tell_left(void)
{
	for (int t = 2; t <= doord.members && is_any_to_be_told; t++) {
		struct member *server = &doord.member[t];
		struct client *client = server->slot ? server->slot->client : NULL;
		if (!server->is_to_be_told)
			continue;
		server->is_to_be_told = false;
		if (!client || client->is_gone)
			continue;
		atomic_store(&client->area->slot[server->slot->index].left, server->invocation);
		atomic_fetch_add(&client->area->leavers, 1);
		(void)syscall(SYS_futex, &client->area->leavers, FUTEX_WAKE, INT_MAX, NULL, NULL, 0);
	}
	is_any_to_be_told = false;
}
