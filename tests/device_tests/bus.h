// The bus of the simulated chips, for chip.c.
uint8_t bus_get_byte(uintptr_t at);
uint32_t bus_get(uintptr_t at);
void bus_put(uintptr_t at, uint32_t word);
