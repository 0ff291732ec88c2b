/* Where code and RAM lie on qemu's RISC-V boards. start_riscv.S has the same places. */
MEMORY {
    code : ORIGIN = 0x80000000, LENGTH = 2M
    ram : ORIGIN = 0x80200000, LENGTH = ram_size
}
INCLUDE sections.ld
