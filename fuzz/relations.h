/* What holds between the calls: checked of an accepted answer by other calls of the library. */
#ifndef RELATIONS_H
#define RELATIONS_H

#include "calls.h"

/* Stops the program where an accepted answer disagrees with what the header says of it. */
void check_relations(const request *asked, const answer *given);

#endif
