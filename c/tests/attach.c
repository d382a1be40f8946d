/* attach: fattach(3C) and fdetach(3C) by all that can go wrong, and by paths of all kinds. */
#include "test.h"

#include <sys/syscall.h>

static int door;
static char answer[64];

static void serve(void *cookie, char *argument, size_t size, door_desc_t *descriptors, uint_t descriptor_count)
{
	(void)argument;
	(void)size;
	(void)descriptors;
	(void)descriptor_count;
	give(cookie == NULL ? "first" : "second");
}

static int answers(const char *path, const char *text)
{
	int it = open(path, O_RDWR), error = ask(it, "", answer, sizeof(answer));

	check(it != -1 && close(it) == 0);
	return error == 0 && strcmp(answer, text) == 0;
}

static void errors(void)
{
	int file = open("file", O_CREAT | O_RDWR, 0644), copy;

	fails(fattach(door, "not_there"), ENOENT);
	fails(fattach(door, "no_folder/file"), ENOENT);
	fails(fattach(door, "file/file"), ENOTDIR);
	fails(fattach(door, ""), ENOENT);
	fails(fattach(file, "file"), EINVAL);
	fails(fattach(-1, "file"), EBADF);
	fails(fattach(1000, "file"), EBADF);
	fails(fattach(-1, "not_there"), EBADF);
	fails(fdetach("file"), EINVAL);
	fails(fdetach("not_there"), ENOENT);
	fails(fdetach("file/file"), ENOTDIR);
	check(fattach(door, "file") == 0);
	fails(fattach(door, "file"), EBUSY);
	fails(fattach(file, "file"), EINVAL);
	check(symlink("file", "link") == 0 && link("file", "hard") == 0);
	fails(fattach(door, "link"), EBUSY);
	fails(fattach(door, "hard"), EBUSY);
	fails(fattach(door, "./file"), EBUSY);
	check(answers("file", "first") && answers("link", "first") && answers("hard", "first"));
	/* by a copy of the descriptor, and a second path */
	copy = dup(door);
	touch("other");
	check(fattach(copy, "other") == 0 && close(copy) == 0 && answers("other", "first"));
	check(fdetach("link") == 0);
	fails(fdetach("file"), EINVAL);
	fails(fdetach("link"), EINVAL);
	check(answers("other", "first") && fdetach("other") == 0);
	close(file);
}

/*
 * The file of an attached path is taken away, past the library as a static program would do it, and another is made under its name: two doors
 * have been attached under one text.
 */
static void same_name(int second)
{
	int kept, file;
	char byte;

	touch("name");
	check(fattach(door, "name") == 0 && link("name", "old") == 0 && syscall(SYS_unlink, "name") == 0);
	file = open("name", O_CREAT | O_RDWR, 0644);
	check(write(file, "x", 1) == 1);
	check(pread(file, &byte, 1, 0) == 1 && byte == 'x');
	fails(fdetach("name"), EINVAL);
	check(fattach(second, "name") == 0);
	check(answers("name", "second") && answers("old", "first"));
	kept = open("name", O_RDWR);
	check(fdetach("old") == 0 && fdetach("name") == 0);
	check(ask(kept, "", answer, sizeof(answer)) == 0 && strcmp(answer, "second") == 0);
	check(close(kept) == 0 && close(file) == 0);
	/* the same file again and again, and a new one each time */
	for (file = 0; file < 50; file++) {
		check(fattach(door, "name") == 0 && answers("name", "first") && fdetach("name") == 0);
		check(unlink("name") == 0);
		touch("name");
	}
	check(rename("name", "renamed") == 0);
	check(fattach(door, "renamed") == 0 && syscall(SYS_rename, "renamed", "name") == 0 && answers("name", "first"));
	fails(fdetach("renamed"), ENOENT);
	check(fdetach("name") == 0);
}

static void odd_names(void)
{
	static const char *const names[] = { "with blank", "quote\"s", "back\\slash", "line\nfeed", "tab\t", "h\xc3\xa4user", "\xff\xfe\x01",
		"#remark", "-o", "=", "\\x41", "%s%n", "'; touch bad; '", "init", "trailing ", " leading" };
	char name[256], deep[4000];
	size_t i;

	for (i = 0; i < sizeof(names) / sizeof(names[0]); i++) {
		touch(names[i]);
		check(fattach(door, names[i]) == 0 && answers(names[i], "first"));
		check(fdetach(names[i]) == 0);
	}
	for (i = 1; i < 255; i++)
		name[i] = (char)(i == '/' ? 'x' : i);
	name[0] = 'a';
	name[255] = '\0';
	touch(name);
	check(fattach(door, name) == 0 && answers(name, "first") && fdetach(name) == 0);
	/* a path of nearly 4,096 bytes: by folders one within the other */
	memset(name, '\x7f', 250);
	name[250] = '\0';
	deep[0] = '\0';
	for (i = 0; i < 14; i++) {
		strcat(strcat(deep, name), "/");
		check(mkdir(deep, 0700) == 0);
	}
	strcat(deep, "file");
	touch(deep);
	check(fattach(door, deep) == 0 && answers(deep, "first") && fdetach(deep) == 0);
}

static void relative(void)
{
	check(mkdir("folder", 0700) == 0 && chdir("folder") == 0);
	touch("here");
	check(fattach(door, "here") == 0 && answers("here", "first") && answers("../folder/here", "first"));
	check(chdir("..") == 0 && answers("folder/here", "first"));
	fails(fdetach("here"), ENOENT);
	check(symlink("folder", "way") == 0 && answers("way/here", "first"));
	check(fdetach("way/here") == 0);
	fails(fdetach("folder/here"), EINVAL);
}

int main(void)
{
	int second;

	door = door_create(serve, NULL, 0);
	second = door_create(serve, (void *)1, 0);
	errors();
	same_name(second);
	odd_names();
	relative();
	say("done");
	return 0;
}
