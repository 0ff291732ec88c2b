/* Where code and RAM lie on an STM32F405 and an STM32F205. The last 4 KiB of the flash have the words. */
MEMORY {
    code : ORIGIN = 0x08000000, LENGTH = 1020K
    ram : ORIGIN = 0x20000000, LENGTH = ram_size
}
INCLUDE sections.ld
