/* Which comparison is made to see a flipped bit, from 1 on, or 0; and how many were made. */
#ifndef CHECK_H
#define CHECK_H

#include "driver.h"

extern unsigned long check_plant;
unsigned long check_count(void);

#endif
