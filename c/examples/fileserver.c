/*
 * fileserver PATH FOLDER: opens the files of FOLDER for its clients.
 *
 * A client sends the name of a file, and gets a descriptor that is open for reading. The client needs no right to the file itself: what
 * may be read is for the server to say.
 */
#include <door.h>
#include <errno.h>
#include <fcntl.h>
#include <stdio.h>
#include <stdlib.h>
#include <string.h>
#include <stropts.h>
#include <unistd.h>

static int folder;

/* The argument is a name. The result is 0 and a descriptor, or the number of an error. */
static void open_file(void *cookie, char *argument, size_t size, door_desc_t *descriptors, uint_t descriptor_count)
{
	char name[256];
	int error = 0;
	door_desc_t file;

	(void)cookie;
	(void)descriptors;
	(void)descriptor_count;
	memset(&file, 0, sizeof(file));
	if (size == 0 || size >= sizeof(name) || memchr(argument, '/', size) != NULL || memchr(argument, '\0', size) != NULL) {
		error = EINVAL;
	} else {
		memcpy(name, argument, size);
		name[size] = '\0';
		file.d_attributes = DOOR_DESCRIPTOR | DOOR_RELEASE; /* the server's own descriptor is closed once it is passed */
		file.d_data.d_desc.d_descriptor = openat(folder, name, O_RDONLY | O_NOFOLLOW);
		if (file.d_data.d_desc.d_descriptor == -1)
			error = errno;
	}
	door_return((char *)&error, sizeof(error), &file, error == 0 ? 1 : 0);
	perror("door_return");
}

int main(int argc, char **argv)
{
	int door, file;

	if (argc != 3) {
		fprintf(stderr, "usage: fileserver PATH FOLDER\n");
		return 2;
	}
	folder = open(argv[2], O_RDONLY | O_DIRECTORY);
	if (folder == -1) {
		perror(argv[2]);
		return 1;
	}
	file = open(argv[1], O_CREAT | O_RDWR, 0644);
	if (file == -1) {
		perror(argv[1]);
		return 1;
	}
	close(file);
	/* Nobody has a reason to pass descriptors to this server. */
	door = door_create(open_file, NULL, DOOR_REFUSE_DESC);
	if (door == -1 || fattach(door, argv[1]) == -1) {
		perror("fileserver");
		return 1;
	}
	for (;;)
		pause();
}
