/* Texts that are kept once, and the files of source. */
#ifndef NAMES_H
#define NAMES_H
#include <stdint.h>

/* Where in TEXT a name begins; it is added where it isn't there yet. */
uint32_t text_number(const char *name);

/* The number of a file, by the folder in which its unit was compiled and its name. */
uint32_t file_number(const char *folder, const char *name);
#endif
