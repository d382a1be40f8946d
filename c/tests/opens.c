/* opens: which calls of open(2) get the door of a file that has one, and which the file. */
#define _GNU_SOURCE 1
#include "test.h"

static int door;

static void serve(void *cookie, char *argument, size_t size, door_desc_t *descriptors, uint_t descriptor_count)
{
	(void)cookie;
	(void)argument;
	(void)size;
	(void)descriptors;
	(void)descriptor_count;
	give("door");
}

static int is_door(int descriptor)
{
	door_info_t info;
	int found = descriptor != -1 && door_info(descriptor, &info) == 0;

	check(descriptor != -1);
	if (descriptor != -1)
		close(descriptor);
	return found;
}

/* What the file has, by a call that no door is for. */
static int has(const char *path, const char *text)
{
	char found[64] = "";
	FILE *file = fopen(path, "r");
	size_t size;

	if (file == NULL)
		return 0;
	size = fread(found, 1, sizeof(found) - 1, file);
	fclose(file);
	return size == strlen(text) && memcmp(found, text, size) == 0;
}

static void all_ways(const char *path)
{
	int folder = open(".", O_RDONLY | O_DIRECTORY);

	check(is_door(open(path, O_RDWR)) && is_door(open(path, O_RDONLY)) && is_door(open(path, O_WRONLY)));
	check(is_door(open(path, O_RDWR | O_CREAT, 0600)));
	check(is_door(open(path, O_RDWR | O_CREAT | O_TRUNC, 0600)));
	check(is_door(open(path, O_WRONLY | O_TRUNC | O_APPEND | O_NONBLOCK | O_CLOEXEC)));
	check(is_door(open64(path, O_RDWR)));
	check(is_door(creat(path, 0600)) && is_door(creat64(path, 0600)));
	check(is_door(openat(folder, path, O_RDWR)) && is_door(openat64(folder, path, O_RDWR)));
	check(is_door(openat(AT_FDCWD, path, O_RDWR | O_CREAT | O_TRUNC, 0600)));
	fails(open(path, O_RDWR | O_CREAT | O_EXCL, 0600), EEXIST);
	fails(open(path, O_RDONLY | O_DIRECTORY), ENOTDIR);
	check(close(folder) == 0);
}

static void other_files(void)
{
	int file;

	fails(open("not_there", O_RDWR), ENOENT);
	fails(open("", O_RDWR), ENOENT);
	fails(open((const char *)8, O_RDWR), EFAULT);
	fails(open("plain/x", O_RDWR), ENOTDIR);
	file = open("new", O_CREAT | O_RDWR | O_EXCL, 0600);
	check(!is_door(file));
	check(!is_door(open("new", O_RDWR | O_TRUNC)));
	check(!is_door(open("/dev/null", O_RDWR)));
	file = open(".", O_TMPFILE | O_RDWR, 0600);
	check(file == -1 || !is_door(file));
	fails(openat(999, "attached", O_RDWR), EBADF);
}

/* Numbers are the lowest that are free, as everywhere. */
static void lowest(void)
{
	int low = open("/dev/null", O_RDWR), next;

	check(close(low) == 0);
	next = open("attached", O_RDWR);
	check(next == low && dup(next) == low + 1 && door_create(serve, NULL, 0) == low + 2);
	check(close(low) == 0 && open("attached", O_RDWR) == low);
	check(close(low + 1) == 0 && open("/dev/null", O_RDWR) == low + 1 && close(low + 1) == 0);
	check(close(low + 2) == 0 && close(low) == 0);
	next = fcntl(STDIN_FILENO, F_DUPFD, 300);
	check(close(STDIN_FILENO) == 0 && open("attached", O_RDWR) == STDIN_FILENO);
	check(dup2(next, STDIN_FILENO) == STDIN_FILENO && close(next) == 0);
}

/* Who may not open the file may not open the door. */
static void rights(void)
{
	if (geteuid() != 0)
		return;
	check(chmod("attached", 0600) == 0 && seteuid(65534) == 0);
	fails(open("attached", O_RDWR), EACCES);
	fails(open("attached", O_RDONLY), EACCES);
	fails(open("attached", O_RDWR | O_CREAT | O_TRUNC, 0600), EACCES);
	/* nor may attach to it, or detach, who does not own it */
	fails(fattach(door, "plain"), EPERM);
	fails(fdetach("attached"), EPERM);
	check(seteuid(0) == 0 && chmod("attached", 0644) == 0 && chmod(".", 0711) == 0 && seteuid(65534) == 0);
	check(is_door(open("attached", O_RDONLY)));
	fails(open("attached", O_RDWR), EACCES);
	check(seteuid(0) == 0);
}

int main(void)
{
	int file = open("attached", O_CREAT | O_RDWR, 0644);

	check(write(file, "file", 4) == 4);
	check(symlink("attached", "link") == 0 && link("attached", "hard") == 0);
	touch("plain");
	door = door_create(serve, NULL, 0);
	check(!is_door(open("attached", O_RDWR)));
	check(fattach(door, "attached") == 0);
	all_ways("attached");
	all_ways("./attached");
	all_ways("hard");
	all_ways("link");
	fails(open("link", O_RDWR | O_NOFOLLOW), ELOOP);
	check(is_door(open("attached", O_RDWR | O_NOFOLLOW)));
	other_files();
	lowest();
	rights();
	check(has("attached", "file") && pwrite(file, "F", 1, 0) == 1); /* who had the file open has it still */
	check(fdetach("attached") == 0);
	check(!is_door(open("attached", O_RDWR)) && !is_door(open("link", O_RDWR)) && has("attached", "File"));
	check(!is_door(open("attached", O_RDWR | O_TRUNC)) && has("attached", ""));
	say("done");
	return 0;
}
