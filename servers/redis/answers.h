/* answers.h: what a call's requests are answered. */
#ifndef ANSWERS_H
#define ANSWERS_H

#include "playing.h"

/* Answers the open call's request. The call's status as it goes on. */
jc_status answer(struct play *, jc_status request);

#endif
