/* nsc_files.h: look-ups in the files themselves, for the daemon and for clients that have none. */
#ifndef NSC_FILES_H
#define NSC_FILES_H

#include <stddef.h>

#include "nsc_door.h"

extern const char *const nsc_database_name[NSC_DATABASES];

nsc_database_t nsc_database_of(nsc_call_t);

/* FOLDER/NAME, or -1 and ENAMETOOLONG. */
int nsc_path(char *path, size_t size, const char *folder, const char *name);

/* 1 and the line, which the caller frees; 0 where the file has none; -1 and errno. */
int nsc_file_line(const char *folder, nsc_call_t call, const char *key, char **line);

#endif
