/* Where code and RAM lie on qemu's 64-bit ARM board. start_aarch64.S has the same places in its tables. */
MEMORY {
    code : ORIGIN = 0x40200000, LENGTH = 2M
    ram : ORIGIN = 0x40400000, LENGTH = ram_size
}
INCLUDE sections.ld
