// Figures of a run, for a board that is built with MEASURE.
#pragma once
#include <stdint.h>

// Starts counting with this counter, and fills the stack with a pattern.
void measure_begin(uint64_t (*instructions)(void));
// Writes the figures to the line.
void measure_end(void (*put)(uint8_t byte));
