/* processors.h: the entry processors, a fixed list. Each is a function of value and argument alone,
 * so that replicas and logs come to the same. A cache has the first so many of them; one is only
 * ever added behind the last. */
#ifndef PROCESSORS_H
#define PROCESSORS_H

#include "jcache.h"
#include "server.h"

enum { PROCESSORS = 4 };

/* All want the value, as jc_create takes that. */
extern const uint8_t processor_wants[PROCESSORS];

/* The processor of this name; or 255, which no cache has. */
uint8_t processor_named(const struct word *);
/* Answers an open call's request for a processor, whose value has at most so many bytes. */
jc_status process(struct jc_manager *, uint32_t id, size_t max_value);

#endif
