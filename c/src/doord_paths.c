/* doord_paths.c: fattach(3C), fdetach(3C), and open(2) of what they attached. An attached file is its device and inode. */
#include "doord.h"

#include <errno.h>
#include <fcntl.h>
#include <stdlib.h>
#include <string.h>
#include <sys/mman.h>
#include <sys/stat.h>
#include <sys/sysmacros.h>
#include <unistd.h>

/*
 * The table that every program reads before it opens a file. No program can write it or make it smaller, which would end doord and all others
 * by SIGBUS. The path leads to doord's descriptor, which stays open.
 */
void open_table(void)
{
	int file = memfd_create("doord-table", MFD_CLOEXEC | MFD_ALLOW_SEALING);
	char place[64];

	if (file < 0 || ftruncate(file, sizeof *doord.table) < 0)
		fail("the table of paths: %s", strerror(errno));
	doord.table = mmap(NULL, sizeof *doord.table, PROT_READ | PROT_WRITE, MAP_SHARED, file, 0);
	if (doord.table == MAP_FAILED || fcntl(file, F_ADD_SEALS, F_SEAL_SHRINK | F_SEAL_GROW | F_SEAL_FUTURE_WRITE | F_SEAL_SEAL) < 0)
		fail("the table of paths: %s", strerror(errno));
	snprintf(place, sizeof place, "/proc/%d/fd/%d", (int)getpid(), file);
	if (symlink(place, doord.table_path) < 0)
		fail("%s: %s", doord.table_path, strerror(errno));
}

static int find_file(uint64_t device, uint64_t inode)
{
	for (unsigned i = 0; i < doord.paths; i++) {
		const struct path *path = &doord.path[i];
		if (path->door && path->device == device && path->inode == inode)
			return (int)i;
	}
	return -1;
}

static int find_text(const char *text)
{
	for (unsigned i = 0; i < doord.paths; i++)
		if (strcmp(doord.path[i].text, text) == 0)
			return (int)i;
	return -1;
}

/* A text as the history spells it: 0 where there is no room. */
static size_t spell_text(const char *text, char *out, size_t room)
{
	size_t n = 0;

	for (; *text; text++) {
		unsigned char c = (unsigned char)*text;
		if (room - n < 5)
			return 0;
		if (c < 0x20 || c > 0x7e)
			n += (size_t)snprintf(out + n, room - n, "\\x%02x", c);
		else if (c == '"' || c == '\\')
			n += (size_t)snprintf(out + n, room - n, "\\%c", c);
		else
			out[n++] = (char)c;
	}
	out[n] = 0;
	return n;
}

/* What the history calls a path: its last part, and its number where another has that name. */
static void spell_path(const char *text, unsigned number, char *name)
{
	const char *last = strrchr(text, '/');
	size_t n = 0;

	for (last = last ? last + 1 : text; *last && n < 10; last++) {
		char c = *last;
		if (c >= 'A' && c <= 'Z')
			c = (char)(c - 'A' + 'a');
		bool is_letter = c >= 'a' && c <= 'z';
		if (n == 0 && !is_letter)
			name[n++] = 'f';
		name[n++] = is_letter || (c >= '0' && c <= '9') ? c : '_';
	}
	if (n == 0)
		name[n++] = 'f';
	snprintf(name + n, DOORD_NAME - n, "_%u", number + 1);
}

static int new_path(const char *text)
{
	static char spelled[4 * WIRE_DATA];
	char name[DOORD_NAME];

	if (doord.paths == WIRE_PATHS || strlen(text) > 4096 || spell_text(text, spelled, sizeof spelled) == 0)
		return -1;
	spell_path(text, doord.paths, name);
	if (!declare("path %s \"%s\"", name, spelled))
		return -1;
	struct path *path = &doord.path[doord.paths];
	path->text = strdup(text);
	path->file = -1;
	if (!path->text)
		fail("there is no memory");
	return (int)doord.paths++;
}

/* The number of a path, which is declared where it is new; -1 where there are too many. */
static int name_path(const char *text)
{
	int known = find_text(text);

	return known >= 0 ? known : new_path(text);
}

/* The same for a file that nothing is attached to. Where another file of this text is attached still, this is a path of another text. */
static int name_file(const char *text)
{
	enum { TRIED = 9 };
	char other[4096];
	int path = name_path(text);

	for (unsigned n = 2; path >= 0 && doord.path[path].door; n++) {
		/* where many are attached still, a number that none has */
		snprintf(other, sizeof other, "%.4000s (%u)", text, n <= TRIED ? n : n + doord.paths);
		path = name_path(other);
	}
	return path;
}

static const char *text_of(struct slot *slot)
{
	struct wire_request *request = &slot->request;
	size_t size = request->data_size < WIRE_DATA ? request->data_size : WIRE_DATA - 1;

	request->data[size] = 0;
	return (const char *)request->data;
}

bool is_valid(const struct object *door)
{
	return !door->is_revoked && !doord.place[door->place].is_spent;
}

/* A door was revoked, or a process with doors has ended: who waits for a server sees it. */
void tell_validity(void)
{
	for (unsigned i = 0; i < doord.paths; i++)
		if (doord.path[i].door)
			atomic_store(&doord.table->path[i].served, is_valid(doord.path[i].door));
}

static void put_path(unsigned number, int file, const struct stat *found, struct object *door)
{
	struct wire_path *path = &doord.table->path[number];
	struct path *own = &doord.path[number];

	hold(door);
	own->door = door;
	own->file = file;
	own->device = (uint64_t)found->st_dev;
	own->inode = (uint64_t)found->st_ino;
	doord.attached++;
	atomic_store(&path->device, (uint64_t)found->st_dev);
	atomic_store(&path->inode, (uint64_t)found->st_ino);
	atomic_store(&path->served, is_valid(door));
	atomic_store(&path->used, 1);
	atomic_store(&doord.table->count, doord.paths);
	atomic_store(&doord.table->attached, doord.attached);
}

/* What the system knows of a file. It is not asked of those who have the file, who may be a program below doord and never answer. */
static bool look_at(int file, struct stat *found)
{
	struct statx known;

	if (statx(file, "", AT_EMPTY_PATH | AT_STATX_DONT_SYNC, STATX_UID | STATX_INO, &known) != 0)
		return false;
	found->st_dev = makedev(known.stx_dev_major, known.stx_dev_minor);
	found->st_ino = known.stx_ino;
	found->st_uid = known.stx_uid;
	return true;
}

/* Who owns the file attaches and detaches; root, too. */
static bool may_attach(const struct client *client, const struct stat *found)
{
	return client->euid == 0 || client->euid == found->st_uid;
}

void ask_attach(struct slot *slot, int number)
{
	struct member *member = &doord.member[number];
	const char *text = text_of(slot);
	struct stat found;
	int file;

	see_descriptor(slot);
	int missing = slot->request.files == 1 ? take_parcel(slot, &file, 1) : EINVAL;
	if (missing != 0) {
		reply_error(slot, missing == ENFILE ? ENFILE : EINVAL);
		return;
	}
	if (!look_at(file, &found) || !may_attach(slot->client, &found)) {
		close_file(file);
		reply_error(slot, EPERM);
		return;
	}
	/* a path is the history's for good, so one is named where there is something to attach */
	struct object *door = row_of(member->place, slot->request.a);
	int path = find_file(found.st_dev, found.st_ino);
	if (path < 0 && door)
		path = name_file(text);
	if (path < 0) {
		close_file(file);
		if (door && doord.paths == WIRE_PATHS)
			tell_limit(member->place, LIMIT_PATHS);
		begin_reply(slot, KERNEL_ANSWER_FAILURE)->error = door ? EMFILE : EBADF;
		return;
	}
	struct asked asked = { .op = KERNEL_OP_ATTACH, .a = slot->request.a, .b = (uint32_t)path };
	enter_kernel(number, &asked);
	if (answer.kind == KERNEL_ANSWER_FAILURE || !door) {
		close_file(file);
		reply_error(slot, host_error(answer.number[0]));
		return;
	}
	put_path((unsigned)path, file, &found, door);
	begin_reply(slot, KERNEL_ANSWER_DONE);
}

void ask_detach(struct slot *slot, int number)
{
	int path = find_file(slot->request.c, slot->request.d);
	struct asked asked = { .op = KERNEL_OP_DETACH, .b = (uint32_t)path };
	struct stat found;

	if (path < 0) {
		reply_error(slot, EINVAL);
		return;
	}
	if (!look_at(doord.path[path].file, &found) || !may_attach(slot->client, &found)) {
		reply_error(slot, EPERM);
		return;
	}
	enter_kernel(number, &asked);
	if (answer.kind == KERNEL_ANSWER_FAILURE) {
		reply_error(slot, host_error(answer.number[0]));
		return;
	}
	atomic_store(&doord.table->path[path].used, 0);
	atomic_store(&doord.table->attached, --doord.attached);
	close_file(doord.path[path].file);
	doord.path[path].file = -1;
	drop(doord.path[path].door);
	doord.path[path].door = NULL;
	begin_reply(slot, KERNEL_ANSWER_DONE);
}

void ask_open(struct slot *slot, int number)
{
	struct member *member = &doord.member[number];
	int path = find_file(slot->request.c, slot->request.d);
	struct asked asked = { .op = KERNEL_OP_OPEN, .b = (uint32_t)path };

	if (path < 0) {
		reply_error(slot, ENOENT);
		return;
	}
	enter_kernel(number, &asked);
	if (answer.kind != KERNEL_ANSWER_DESCRIPTOR) {
		reply_error(slot, host_error(answer.number[0]));
		return;
	}
	set_row(member->place, answer.number[0], doord.path[path].door);
	tell_descriptor(slot, begin_reply(slot, KERNEL_ANSWER_DESCRIPTOR));
}

/* A script waits until a server is there. It asks once it is, so that the history shows it, and never waits in the kernel. */
void ask_await(struct slot *slot, int number)
{
	int path = find_file(slot->request.c, slot->request.d);
	struct asked asked = { .op = KERNEL_OP_AWAIT, .b = (uint32_t)path };

	if (path < 0) {
		reply_error(slot, ENOENT);
		return;
	}
	enter_kernel(number, &asked);
	if (answer.kind == KERNEL_ANSWER_WAIT) {
		doord.member[number].awaits = true;
		if (can_go_on(number))
			set_ready(number);
	} else if (answer.kind == KERNEL_ANSWER_FAILURE) {
		reply_error(slot, host_error(answer.number[0]));
	} else {
		begin_reply(slot, answer.kind);
	}
}
