/* Several dumps in one call: a line each. */
#ifndef SEVERAL_H
#define SEVERAL_H

#include "options.h"

/* DIR/NAME.png for NAME.dump, where the golden picture of a dump is looked for; the caller frees it. */
char *golden_path(const char *folder, const char *dump);

/* Judges each dump, compares it where a folder of golden pictures is given, and returns the worst exit status. */
int several_show(const struct options *o);

#endif
