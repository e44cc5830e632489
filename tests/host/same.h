/* Whether two states, or two answers, are equal in every field. Bytes of padding may differ: no call keeps them. */
#ifndef SAME_H
#define SAME_H

#include "kamzhor.h"

int same_request(const struct kamzhor_request *a, const struct kamzhor_request *b);
int same_desk(const struct kamzhor_desk *a, const struct kamzhor_desk *b);
int same_lanes(const struct kamzhor_lanes *a, const struct kamzhor_lanes *b);
int same_box(const struct kamzhor_box *a, const struct kamzhor_box *b);
int same_scan(const struct kamzhor_scan *a, const struct kamzhor_scan *b);
int same_bench(const struct kamzhor_bench *a, const struct kamzhor_bench *b);
int same_receiver(const struct kamzhor_receiver *a, const struct kamzhor_receiver *b);
int same_tally(const struct kamzhor_tally *a, const struct kamzhor_tally *b);

int same_opened(const struct kamzhor_opened *a, const struct kamzhor_opened *b);
int same_booked(const struct kamzhor_booked *a, const struct kamzhor_booked *b);
int same_closed(const struct kamzhor_closed *a, const struct kamzhor_closed *b);
int same_seen(const struct kamzhor_seen *a, const struct kamzhor_seen *b);
int same_joined(const struct kamzhor_joined *a, const struct kamzhor_joined *b);
int same_granted(const struct kamzhor_granted *a, const struct kamzhor_granted *b);
int same_scanned(const struct kamzhor_scanned *a, const struct kamzhor_scanned *b);
int same_taken(const struct kamzhor_taken *a, const struct kamzhor_taken *b);
int same_register(const struct kamzhor_register *a, const struct kamzhor_register *b);
int same_size(const struct kamzhor_size *a, const struct kamzhor_size *b);
int same_checked(const struct kamzhor_checked *a, const struct kamzhor_checked *b);
int same_record(const struct kamzhor_record *a, const struct kamzhor_record *b);

#endif
