/* fileclient PATH NAME: prints a file that the file server at PATH opens. */
#include <door.h>
#include <fcntl.h>
#include <stdio.h>
#include <string.h>
#include <unistd.h>

static int print_file(int file)
{
	char text[4096];
	ssize_t size;

	while ((size = read(file, text, sizeof(text))) > 0) {
		if (write(STDOUT_FILENO, text, (size_t)size) != size)
			return 1;
	}
	return size == 0 ? 0 : 1;
}

int main(int argc, char **argv)
{
	int door, error, status;
	char results[256]; /* the bytes, and behind them the descriptors */
	door_arg_t call;

	if (argc != 3) {
		fprintf(stderr, "usage: fileclient PATH NAME\n");
		return 2;
	}
	door = open(argv[1], O_RDWR);
	if (door == -1) {
		perror(argv[1]);
		return 1;
	}
	call.data_ptr = argv[2];
	call.data_size = strlen(argv[2]);
	call.desc_ptr = NULL;
	call.desc_num = 0;
	call.rbuf = results;
	call.rsize = sizeof(results);
	if (door_call(door, &call) == -1) {
		perror("door_call");
		return 1;
	}
	if (call.data_size != sizeof(error)) {
		fprintf(stderr, "fileclient: no answer\n");
		return 1;
	}
	memcpy(&error, call.data_ptr, sizeof(error));
	if (error != 0 || call.desc_num != 1) {
		fprintf(stderr, "%s: %s\n", argv[2], strerror(error));
		return 1;
	}
	status = print_file(call.desc_ptr[0].d_data.d_desc.d_descriptor);
	close(call.desc_ptr[0].d_data.d_desc.d_descriptor);
	close(door);
	return status;
}
