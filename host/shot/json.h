/* The same facts as one JSON document, for scripts. */
#ifndef JSON_H
#define JSON_H

#include "against.h"
#include "shot.h"

/* The document's head, one object a dump, and its end with the exit status. `old` and `a` are NULL where there is no other dump. */
void json_begin(void);
void json_shot(const struct shot *s, const struct shot *old, const struct against *a);
void json_end(int status);

#endif
