/*
 * saratoga-settings, in three files: settings.c has the command line and asks the library, fault.c says where and why a file is
 * refused, store.c puts a file in its place.
 */
#ifndef SETTINGS_H
#define SETTINGS_H

#include <stddef.h>
#include <stdint.h>

#include "saratoga.h"

/* Octets of a file that are looked at: whatever a file holds, its first fault stands far before that (fault.c). */
#define MOST_OCTETS 4096

/* Says, after a colon, where and why a file is refused; `number` is the library's refusal of it by a reader that knows `known`. */
void print_fault(const uint8_t *file, size_t len, uint64_t known, uint64_t number);

/* Says why settings to be written are refused with 25. */
const char *unfit(const struct saratoga_settings *settings);

/* Puts these octets in the place of the file `name`: 1, or 0 where that failed, which it told. */
int replace_file(const char *name, const uint8_t *octets, size_t len);

/* Tells on standard error of something wrong with a file. */
void wrong_file(const char *name, const char *what);

#endif
