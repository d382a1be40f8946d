/* doord_kernel.c: turns of the kernel, and the history that they make. */
#include "doord.h"

#include <errno.h>
#include <fcntl.h>
#include <stdarg.h>
#include <stdlib.h>
#include <string.h>
#include <sys/file.h>
#include <sys/stat.h>
#include <unistd.h>

struct answer answer;

/* The kernel, its buffers, and lines that are not written yet. */
static struct {
	struct kernel kernel;
	uint64_t *reply;
	uint8_t *bytes, *text;
	size_t reply_room, bytes_room, text_room;
	int file;
	char *out;
	size_t used, room;
} history;

static void *room_for(size_t count, size_t size)
{
	void *room = calloc(count, size);
	if (!room)
		fail("there is no memory");
	return room;
}

static void add_text(const char *text, size_t size)
{
	if (history.room - history.used < size) {
		size_t room = 2 * (history.room + size);
		char *out = realloc(history.out, room);
		if (!out)
			fail("there is no memory");
		history.out = out;
		history.room = room;
	}
	memcpy(history.out + history.used, text, size);
	history.used += size;
}

static _Noreturn void cannot_write(void)
{
	fail("%s: the history cannot be written: %s", doord.options.history, strerror(errno));
}

/* All lines that were made are in the file before an answer of theirs goes out. */
void write_history(void)
{
	size_t done = 0;

	while (done < history.used) {
		ssize_t n = write(history.file, history.out + done, history.used - done);
		if (n < 0 && errno == EINTR)
			continue;
		if (n <= 0) {
			history.used = 0;
			cannot_write();
		}
		done += (size_t)n;
	}
	history.used = 0;
}

/* The history holds all that programs say to each other, and is of one doord. */
static void open_file(const char *name)
{
	struct stat found;

	history.file = open(name, O_WRONLY | O_CREAT | O_CLOEXEC, 0600);
	if (history.file < 0 || fstat(history.file, &found) < 0)
		cannot_write();
	if (!S_ISREG(found.st_mode))
		return;
	if (flock(history.file, LOCK_EX | LOCK_NB) < 0)
		fail("%s: another doord writes it; -o FILE names another", name);
	if (ftruncate(history.file, 0) < 0 || fchmod(history.file, 0600) < 0)
		cannot_write();
}

/* A kernel of the places that are laid out, and the head of its history. */
void open_kernel(void)
{
	struct kernel_process process[DOORD_PLACES];
	size_t written = 0;

	open_file(doord.options.history);
	history.reply_room = kernel_c_reply_room();
	history.bytes_room = kernel_c_bytes_room();
	history.text_room = kernel_c_text_room();
	history.reply = room_for(history.reply_room, sizeof *history.reply);
	history.bytes = room_for(history.bytes_room, 1);
	history.text = room_for(history.text_room, 1);
	memset(process, 0, sizeof process);
	for (int i = 1; i <= doord.places; i++) {
		struct place *place = &doord.place[i];
		process[i - 1].limit = doord.options.limit;
		process[i - 1].parent = i == 1 ? 0 : place->parent ? (uint32_t)place->parent : 1;
		for (int t = place->first; t <= place->last; t++) {
			if (doord.member[t].kind == MEMBER_SPARE)
				process[i - 1].spares++;
			else
				process[i - 1].threads++;
		}
	}
	uint32_t status = kernel_c_new(&history.kernel, process, (size_t)doord.places, history.text, history.text_room, &written);
	if (status != KERNEL_DONE)
		fail("no kernel begins so (%u)", (unsigned)status);
	add_text((const char *)history.text, written);
	write_history();
}

static bool refused(uint32_t status, const char *what, int member)
{
	if (status == KERNEL_NO_MEMORY)
		fail("there is no memory");
	if (status == KERNEL_FULL)
		doord.is_full = true;
	else if (status != KERNEL_NOT_FIT && status != KERNEL_NOT_READY && status != KERNEL_NOT_RUNNING)
		fail("the kernel refused %s of thread %d (%u)", what, member, (unsigned)status);
	memset(&answer, 0, sizeof answer);
	answer.kind = KERNEL_ANSWER_FAILURE;
	answer.number[0] = KERNEL_ERROR_EINVAL;
	return false;
}

/* What the kernel answered, and who can go on now. */
static bool taken(size_t written)
{
	const uint64_t *word = history.reply;
	size_t woken = word[KERNEL_REPLY_WOKEN_COUNT];

	add_text((const char *)history.text, written);
	answer.kind = word[KERNEL_REPLY_ANSWER];
	memcpy(answer.number, word + KERNEL_REPLY_FIRST, sizeof answer.number);
	answer.data = history.bytes;
	answer.data_size = word[KERNEL_REPLY_BYTES_COUNT];
	answer.item = word + KERNEL_REPLY_ITEMS;
	answer.items = word[KERNEL_REPLY_ITEMS_COUNT];
	for (size_t i = 0; i < woken; i++)
		member_woken((int)word[KERNEL_REPLY_ITEMS + answer.items + i]);
	return true;
}

bool enter_kernel(int member, const struct asked *asked)
{
	struct kernel_asked words = { asked->op, (uint32_t)member, asked->a, asked->b, asked->c, asked->d };
	size_t written = 0;
	uint32_t status = kernel_c_enter(&history.kernel, &words, asked->data, asked->data_size, asked->item, asked->items, history.reply,
		history.reply_room, history.bytes, history.bytes_room, history.text, history.text_room, &written);

	return status == KERNEL_DONE ? taken(written) : refused(status, "a request", member);
}

bool end_wait(int member)
{
	size_t written = 0;
	uint32_t status = kernel_c_go_on(&history.kernel, (uint32_t)member, history.reply, history.reply_room, history.bytes,
		history.bytes_room, history.text, history.text_room, &written);

	return status == KERNEL_DONE ? taken(written) : refused(status, "a wait", member);
}

bool can_go_on(int member)
{
	return kernel_c_runnable(&history.kernel, (uint32_t)member) == 1;
}

/* Whether it could enter the kernel. */
bool is_running(int member)
{
	return kernel_c_state(&history.kernel, (uint32_t)member) == KERNEL_THREAD_RUNNING;
}

/* A line that declares a name, of the history's words. */
bool declare(const char *form, ...)
{
	static char line[65536];
	va_list list;

	va_start(list, form);
	int size = vsnprintf(line, sizeof line - 1, form, list);
	va_end(list);
	if (size < 0 || (size_t)size >= sizeof line - 1)
		return false;
	uint32_t status = kernel_c_declare(&history.kernel, (const uint8_t *)line, (size_t)size);
	if (status == KERNEL_NO_MEMORY)
		fail("there is no memory");
	if (status != KERNEL_DONE)
		return false;
	line[size] = '\n';
	add_text(line, (size_t)size + 1);
	return true;
}

/* A line that a judge passes over. */
void remark(const char *form, ...)
{
	char line[512] = "# ";
	va_list list;

	va_start(list, form);
	vsnprintf(line + 2, sizeof line - 3, form, list);
	va_end(list);
	for (char *at = line; *at; at++)
		if (*at < 0x20 || *at > 0x7e)
			*at = '?';
	add_text(line, strlen(line));
	add_text("\n", 1);
}

void close_history(void)
{
	size_t written = 0;

	if (kernel_c_end(&history.kernel, history.text, history.text_room, &written) != KERNEL_DONE)
		fail("there is no memory");
	add_text((const char *)history.text, written);
	write_history();
	kernel_c_close(&history.kernel);
	if (close(history.file) < 0)
		cannot_write();
	free(history.reply);
	free(history.bytes);
	free(history.text);
	free(history.out);
}

int host_error(uint64_t kernel_error)
{
	static const int error[] = {
		[KERNEL_ERROR_E2BIG] = E2BIG,     [KERNEL_ERROR_EAGAIN] = EAGAIN,   [KERNEL_ERROR_EBADF] = EBADF,
		[KERNEL_ERROR_EBADFD] = EBADFD,   [KERNEL_ERROR_EBUSY] = EBUSY,     [KERNEL_ERROR_EINTR] = EINTR,
		[KERNEL_ERROR_EINVAL] = EINVAL,   [KERNEL_ERROR_EMFILE] = EMFILE,   [KERNEL_ERROR_ENFILE] = ENFILE,
		[KERNEL_ERROR_ENOBUFS] = ENOBUFS, [KERNEL_ERROR_ENOENT] = ENOENT,   [KERNEL_ERROR_ENOTSUP] = ENOTSUP,
		[KERNEL_ERROR_EPERM] = EPERM,     [KERNEL_ERROR_EPIPE] = EPIPE,     [KERNEL_ERROR_ETIME] = ETIME,
	};

	return kernel_error > 0 && kernel_error < sizeof error / sizeof *error ? error[kernel_error] : EINVAL;
}
