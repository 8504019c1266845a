/* W(level, size): how many cells a load of 2^level minutes writes in a warehouse of 2^size minutes. It answers 0 where there is
 * no such load: level over 12 or over the size, or size over 20. */
#ifndef RALDVOPT_H
#define RALDVOPT_H

#include <stdint.h>

uint32_t cells_written(uint32_t level, uint32_t size);

#endif
