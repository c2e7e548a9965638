/* The listing of a run: the place of each counted step, in order, as rapid_call_mark takes it. */
#ifndef RAPID_PLACES_H
#define RAPID_PLACES_H
#include "rapid.h"

enum { MOST_PLACES = 1000000 };

/* Of the run that is lent, with at most MOST_PLACES steps, into an array with room for as many; fills in the run's record, which has how many there are. 0 where a call is not made. */
int rapid_places(const struct rapid_lent *lent, uint32_t *places, struct rapid_record *record);

#endif
