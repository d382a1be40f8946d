/* nsc_files.c: look-ups in FOLDER/passwd and FOLDER/group. */
#include "nsc_files.h"

#include <errno.h>
#include <limits.h>
#include <stdbool.h>
#include <stdio.h>
#include <stdlib.h>
#include <string.h>

const char *const nsc_database_name[NSC_DATABASES] = { "passwd", "group" };

nsc_database_t nsc_database_of(nsc_call_t call)
{
	return call == NSC_GETPWNAM || call == NSC_GETPWUID ? NSC_PASSWD : NSC_GROUP;
}

int nsc_path(char *path, size_t size, const char *folder, const char *name)
{
	int length = snprintf(path, size, "%s/%s", folder, name);

	if (length >= 0 && (size_t)length < size)
		return 0;
	errno = ENAMETOOLONG;
	return -1;
}

/* Whether this field of the line, from 0, is the key. */
static bool has_field(const char *line, unsigned field, const char *key)
{
	for (; field > 0; field--) {
		line = strchr(line, ':');
		if (line == NULL)
			return false;
		line++;
	}
	return strcspn(line, ":") == strlen(key) && strncmp(line, key, strlen(key)) == 0;
}

/* Names are the first field of both files, numbers the third. */
static unsigned field_of(nsc_call_t call)
{
	return call == NSC_GETPWNAM || call == NSC_GETGRNAM ? 0 : 2;
}

static int find_line(FILE *file, nsc_call_t call, const char *key, char **found)
{
	char *line = NULL;
	size_t room = 0;

	errno = 0;
	while (getline(&line, &room, file) != -1) {
		line[strcspn(line, "\n")] = '\0';
		if (line[0] == '#' || !has_field(line, field_of(call), key))
			continue;
		*found = line;
		return 1;
	}
	free(line);
	return feof(file) && !ferror(file) ? 0 : -1;
}

int nsc_file_line(const char *folder, nsc_call_t call, const char *key, char **line)
{
	char path[PATH_MAX];
	FILE *file;
	int found, error;

	if (nsc_path(path, sizeof(path), folder, nsc_database_name[nsc_database_of(call)]) == -1)
		return -1;
	file = fopen(path, "r");
	if (file == NULL)
		return -1;
	found = find_line(file, call, key, line);
	error = errno;
	(void)fclose(file);
	errno = error;
	return found;
}
