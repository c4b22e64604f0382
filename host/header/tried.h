/* What the tests of include/duart.h share: one chip, and what was found beside what was wanted. */
#ifndef TRIED_H
#define TRIED_H

#include "duart.h"

#include <stdio.h>

static duart_device chip;

static inline duart_seen step(duart_event event)
{
    return duart_step(&chip, event);
}

static int differs(const char *what, unsigned found, unsigned wanted)
{
    printf("%s: %u%s\n", what, found, found == wanted ? "" : " (WRONG)");
    return found != wanted;
}

#endif
