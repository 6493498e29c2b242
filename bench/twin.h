/* The plain C twin of the library's six calls: the same arguments, the same records. */
#ifndef TWIN_H
#define TWIN_H

#include "calls.h"

candidate_call twin_candidate;
quotient_call twin_quotient;
image_call twin_image;
write_call twin_write;
shorter_call twin_shorter_part;
cancel_call twin_cancel;

#endif
