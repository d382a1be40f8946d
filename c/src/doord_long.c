/*
 * doord_long.c: messages of more bytes than the kernel takes, where --long says so. They go beside it, as a sealed
 * memory, and what the kernel gets for them is the text `long SIZE SHA256`. What it can test no more, as the size
 * against a door's data-min and data-max, is tested here, and a remark says so.
 */
#include "doord.h"
#include "sha256.h"

#include <errno.h>
#include <fcntl.h>
#include <linux/magic.h>
#include <string.h>
#include <sys/stat.h>
#include <sys/statfs.h>
#include <unistd.h>

enum {
	DATA = 4096,  /* the most bytes of a message of the kernel */
	CHUNK = 65536,
};

static const char *name_of(int place)
{
	return doord.place[place].name;
}

void tell_long(void)
{
	if (doord.options.takes_long)
		remark("--long: a message above 4096 bytes goes beside the kernel, which has long SIZE SHA256 for it");
}

/* The size of a memory that nobody can change any more, and that is read without waiting; 0 where it is none. */
static uint64_t size_of_sealed(int file)
{
	const int sealed = F_SEAL_WRITE | F_SEAL_SHRINK | F_SEAL_GROW;
	int seals = fcntl(file, F_GET_SEALS);
	struct statfs system;
	struct stat found;

	if (seals < 0 || (seals & sealed) != sealed)
		return 0;
	/* not of huge pages, of which a receiver may find none */
	if (fstatfs(file, &system) < 0 || system.f_type != TMPFS_MAGIC || fstat(file, &found) < 0)
		return 0;
	return found.st_size > DATA && found.st_size <= WIRE_LONG ? (uint64_t)found.st_size : 0;
}

static bool sum_file(int file, uint64_t size, char *text)
{
	static uint8_t chunk[CHUNK];
	struct sha256 sum;

	sha256_begin(&sum);
	for (uint64_t done = 0; done < size;) {
		ssize_t count = pread(file, chunk, sizeof chunk, (off_t)done);
		if (count == 0 || (count < 0 && errno != EINTR))
			return false;
		if (count > 0)
			sha256_add(&sum, chunk, (size_t)count);
		done += count > 0 ? (uint64_t)count : 0;
	}
	sha256_end(&sum, text);
	return true;
}

/* The slot's message lies in the file: what the kernel gets is in the request then. 0, or an error: the file is closed. */
int put_beside(struct slot *slot, int file, struct object **beside)
{
	struct wire_request *request = &slot->request;
	char sum[SHA256_TEXT];
	uint64_t size = doord.options.takes_long ? size_of_sealed(file) : 0;

	if (size == 0 || !sum_file(file, size, sum)) {
		close_file(file);
		return doord.options.takes_long ? EINVAL : ENOTSUP;
	}
	char *text = (char *)request->data;
	request->data_size = (uint32_t)snprintf(text, sizeof request->data, "long %llu %s", (unsigned long long)size, sum);
	struct object *object = new_object();
	object->file = file;
	object->size = size;
	hold(object);
	*beside = object;
	remark("%s: %llu bytes go beside the kernel", name_of(slot->client->place), (unsigned long long)size);
	return 0;
}

/* The kernel compares the length of its text with the door's data-min, which the bytes were compared with. */
void pad_beside(struct slot *slot, const struct object *door)
{
	struct wire_request *request = &slot->request;
	uint64_t least = door && door->is_door ? door->least : 0;

	while (request->data_size < least && request->data_size < DATA)
		request->data[request->data_size++] = ' ';
}

/* Whether the size is one that the door refuses, where the kernel does not see that. */
bool is_refused_beside(const struct slot *slot, const struct object *door, const struct object *beside)
{
	uint64_t size = beside ? beside->size : slot->request.data_size;

	if (!doord.options.takes_long || !door || !door->is_door || !is_valid(door))
		return false;
	if (!beside && (door->least <= DATA || size != DATA))
		return false;
	if (size >= door->least && size <= door->most)
		return false;
	remark("%s: a call with %llu bytes is ENOBUFS, which the kernel was not asked: data-min is %llu, data-max %llu",
		name_of(slot->client->place), (unsigned long long)size, (unsigned long long)door->least,
		(unsigned long long)door->most);
	return true;
}

/* parameters */

/*
 * A data-min above what the kernel takes is beside it: the kernel has the most that it can compare with. Where one is
 * above a data-max that is to be set, what the kernel is asked is refused as well.
 */
void ask_parameter_beside(struct asked *asked, const struct member *member, const struct object *door)
{
	const char *name = name_of(member->place);
	unsigned long long value = asked->c;

	if (!doord.options.takes_long || asked->op != KERNEL_OP_SET_PARAMETER)
		return;
	if (!door || !door->is_door || door->place != member->place)
		return;
	if (asked->b == KERNEL_PARAMETER_DATA_MIN && value > DATA && value <= door->most) {
		remark("%s: data-min is %llu, of which the kernel has %d", name, value, DATA);
		asked->c = DATA;
	} else if (asked->b == KERNEL_PARAMETER_DATA_MAX && value >= DATA && value < door->least) {
		remark("%s: data-max %llu is below data-min, of which the kernel has %d", name, value, DATA);
		asked->c = DATA - 1;
	}
}

/* What was set, as the program said it. */
void follow_parameter(const struct wire_request *request, struct object *door)
{
	if (request->b == KERNEL_PARAMETER_DATA_MIN)
		door->least = request->c;
	else if (request->b == KERNEL_PARAMETER_DATA_MAX)
		door->most = request->c;
}

/* What is told of a parameter that was set so. */
void tell_parameter(struct wire_reply *reply, const struct wire_request *request, const struct object *door)
{
	if (!doord.options.takes_long || request->b != KERNEL_PARAMETER_DATA_MIN)
		return;
	if (!door || !door->is_door || door->least <= DATA)
		return;
	reply->c = door->least;
	remark("data-min is told as %llu", (unsigned long long)door->least);
}
