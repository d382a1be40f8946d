/* busy: unlink(2), rename(2) and their kin of a file to which a door is attached, as long as its server is there. */
#define _GNU_SOURCE 1
#include "test.h"

static int door;

static void serve(void *cookie, char *argument, size_t size, door_desc_t *descriptors, uint_t descriptor_count)
{
	(void)cookie;
	(void)argument;
	(void)size;
	(void)descriptors;
	(void)descriptor_count;
	give("door");
}

static int answers(const char *path)
{
	int it = open(path, O_RDWR);
	char answer[64];
	int error = ask(it, "", answer, sizeof(answer));

	check(it != -1 && close(it) == 0);
	return error == 0 && strcmp(answer, "door") == 0;
}

/* By all names of the calls, and all names of the file. */
static void all_refuse(const char *path, int folder)
{
	fails(unlink(path), EBUSY);
	fails(unlinkat(AT_FDCWD, path, 0), EBUSY);
	fails(unlinkat(folder, path, 0), EBUSY);
	fails(remove(path), EBUSY);
	fails(rename(path, "new"), EBUSY);
	fails(renameat(folder, path, AT_FDCWD, "new"), EBUSY);
	fails(renameat2(AT_FDCWD, path, folder, "new", 0), EBUSY);
	fails(renameat2(AT_FDCWD, path, folder, "new", RENAME_NOREPLACE), EBUSY);
	fails(renameat2(AT_FDCWD, path, folder, "other", RENAME_EXCHANGE), EBUSY);
	fails(rename("other", path), EBUSY);
	fails(renameat(AT_FDCWD, "other", folder, path), EBUSY);
	fails(renameat2(AT_FDCWD, "other", folder, path, RENAME_EXCHANGE), EBUSY);
	fails(renameat2(AT_FDCWD, "other", folder, path, RENAME_NOREPLACE), EEXIST);
	fails(rmdir(path), ENOTDIR);
	fails(unlinkat(AT_FDCWD, path, AT_REMOVEDIR), ENOTDIR);
	check(is_there(path) && is_there("other") && !is_there("new") && answers(path));
}

/* A link to it is another file, and so is the folder in which it lies. */
static void others(void)
{
	check(symlink("folder/attached", "link") == 0 && rename("link", "way") == 0 && answers("way") && unlink("way") == 0);
	check(rename("folder", "moved") == 0 && answers("moved/attached"));
	fails(unlink("moved/attached"), EBUSY);
	fails(rmdir("moved"), ENOTEMPTY);
	check(rename("moved", "folder") == 0);
	touch("plain");
	check(rename("plain", "plain2") == 0 && link("plain2", "plain3") == 0 && remove("plain3") == 0 && unlink("plain2") == 0);
	check(mkdir("empty", 0700) == 0 && remove("empty") == 0);
	fails(unlink("not_there"), ENOENT);
	fails(unlink("other/x"), ENOTDIR);
	fails(unlink((const char *)8), EFAULT);
	fails(rename("not_there", "new"), ENOENT);
	fails(unlinkat(999, "attached", 0), EBADF);
}

static int short_server(void)
{
	serve_at("short", serve, NULL, 0);
	touch("up");
	wait_for("end");
	return 0;
}

/* The file of a server that is gone may go as well. */
static void after_its_end(void)
{
	pid_t server = beside(short_server);
	int i;

	wait_for("up");
	check(answers("short"));
	fails(unlink("short"), EBUSY);
	touch("end");
	check(end_of(server) == 0);
	for (i = 0; i < 2000 && unlink("short") == -1; i++)
		usleep(5000);
	check(i < 2000 && !is_there("short"));
}

int main(void)
{
	int folder;

	check(mkdir("folder", 0700) == 0);
	after_its_end();
	door = serve_at("folder/attached", serve, NULL, 0);
	check(chdir("folder") == 0 && link("attached", "hard") == 0);
	touch("other");
	folder = open(".", O_RDONLY | O_DIRECTORY);
	all_refuse("attached", folder);
	all_refuse("./attached", folder);
	all_refuse("../folder/attached", folder);
	all_refuse("hard", folder);
	check(chdir("..") == 0);
	touch("other");
	others();
	check(fdetach("folder/attached") == 0 && unlink("folder/hard") == 0 && rename("folder/attached", "again") == 0);
	check(fattach(door, "again") == 0);
	fails(unlink("again"), EBUSY);
	check(door_revoke(door) == 0 && unlink("again") == 0);
	say("done");
	return 0;
}
