/* shrink.h: from a history that ends in a difference to a short one. */
#ifndef COMPARE_SHRINK_H
#define COMPARE_SHRINK_H

#include "both.h"

/* Takes steps out of the history for as long as some difference remains, for at most `seconds`. Afterwards `both` stands
 * at the difference. Power-on stays the first call. False if the history, made again, shows no difference: then it is left
 * as it was. */
bool shrink(struct both *both, struct steps *history, double seconds);

#endif
