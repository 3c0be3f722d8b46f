/* Where a linker places a program for the simulator: code and constants in the code region, each processor's own stack and variables
   in its local memory, and what all processors share in shared memory. `--defsym=stack_size=N` and `--defsym=shared_words=N` change
   the two sizes. */

OUTPUT_ARCH(riscv)
ENTRY(start)

MEMORY
{
    code (rx)    : ORIGIN = 0x00010000, LENGTH = 64K
    local (rw)   : ORIGIN = 0x00020000, LENGTH = 64K
    shared (rw)  : ORIGIN = 0x80000000, LENGTH = 1M
}

/* One segment a region, with the flags that the simulator requires: PF_R + PF_X is 5, PF_R + PF_W is 6. The headers of the file are in
   no segment. */
PHDRS
{
    code PT_LOAD FLAGS(5);
    local PT_LOAD FLAGS(6);
    shared PT_LOAD FLAGS(6);
}

/* The stack comes first in local memory, so a program that overflows it stores to the code region and stops by fault 6. Threads copy
   local memory up to the last byte that was written, so nothing is gained by a stack at its end. */
ultra_stack_size = DEFINED(stack_size) ? stack_size : 2K;
stack_top = ORIGIN(local) + ultra_stack_size;

/* As many shared words as the simulator has unless `--words` gives another number. */
ultra_shared_words = DEFINED(shared_words) ? shared_words : 1024;

SECTIONS
{
    .text : { KEEP(*(.text.start)) *(.text .text.*) } >code :code
    .rodata : { *(.rodata .rodata.* .srodata .srodata.*) } >code :code

    .data stack_top : { *(.data .data.* .sdata .sdata.*) } >local :local

    /* Shared variables that are zero at the start take no room in the file. They come before .bss, whose patterns would match them. */
    .shared : { KEEP(*(.shared .shared.*)) } >shared :shared
    .shared.bss (NOLOAD) : { KEEP(*(.bss.shared .bss.shared.*)) } >shared :shared

    .bss (NOLOAD) : { *(.bss .bss.* .sbss .sbss.* COMMON) } >local :local

    /* Sections that would be left out silently. */
    .constructors : { KEEP(*(.preinit_array .preinit_array.* .init_array .init_array.* .ctors .ctors.* .fini_array .fini_array.* .dtors .dtors.*)) } >code :code
    .thread_local : { *(.tdata .tdata.* .tbss .tbss.*) } >code :code

    /* For debuggers; the simulator does not look at them. */
    .debug_info 0 : { *(.debug_info) }
    .debug_abbrev 0 : { *(.debug_abbrev) }
    .debug_aranges 0 : { *(.debug_aranges) }
    .debug_line 0 : { *(.debug_line) }
    .debug_line_str 0 : { *(.debug_line_str) }
    .debug_str 0 : { *(.debug_str) }
    .debug_str_offsets 0 : { *(.debug_str_offsets) }
    .debug_addr 0 : { *(.debug_addr) }
    .debug_loc 0 : { *(.debug_loc) }
    .debug_loclists 0 : { *(.debug_loclists) }
    .debug_ranges 0 : { *(.debug_ranges) }
    .debug_rnglists 0 : { *(.debug_rnglists) }
    .debug_frame 0 : { *(.debug_frame) }

    /DISCARD/ : { *(.comment .note .note.* .eh_frame .eh_frame_hdr .riscv.attributes .llvm_addrsig) }

    /* The linker's own. */
    .rela.dyn 0 : { *(.rela.*) }
    .symtab 0 : { *(.symtab) }
    .symtab_shndx 0 : { *(.symtab_shndx) }
    .strtab 0 : { *(.strtab) }
    .shstrtab 0 : { *(.shstrtab) }
}

/* Any other section is refused by `--orphan-handling=error`. */
ASSERT(SIZEOF(.rela.dyn) == 0, "an address is not known when the program is linked: link without -pie and -shared")
ASSERT(SIZEOF(.constructors) == 0, "constructors are not run on this machine: initialize by constants, or call a function from main")
ASSERT(SIZEOF(.thread_local) == 0, "there is no thread-local data: each processor has its own copy of a variable that is not SHARED")
ASSERT(ultra_stack_size % 16 == 0 && ultra_stack_size <= 64K, "stack_size has to be a multiple of 16, and 65536 at most")
ASSERT(SIZEOF(.shared) + SIZEOF(.shared.bss) <= 4 * ultra_shared_words, "the shared variables need more words: link with --defsym=shared_words=N, and run with --words N")
