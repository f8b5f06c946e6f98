/* The first instructions of the kernel. A loader that knows PVH, as QEMU's, enters at start32 in 32-bit protected mode without
 * paging. From there: the first GiB mapped as it lies, long mode, SSE, a stack, and kernel_main. Behind that, the entries of
 * faults and of the timer. */

        .section .note.pvh, "a", @note
        .balign 4
        .long   4, 8, 18                /* the name has 4 bytes, the entry 8; XEN_ELFNOTE_PHYS32_ENTRY */
        .asciz  "Xen"
        .quad   start32

        .bss
        .balign 4096
level4: .skip   4096
level3: .skip   4096
level2: .skip   4096                    /* 512 pages of 2 MiB */
        .globl  stack_bottom, stack_top
stack_bottom:
        .skip   65536
stack_top:

        .data
        .balign 8
segments:
        .quad   0
        .quad   0x00af9a000000ffff      /* 8: code of 64 bits */
        .quad   0x00cf92000000ffff      /* 16: data */
segments_end:
segments_at:
        .word   segments_end - segments - 1
        .quad   segments

        .text
        .code32
        .globl  start32
start32:
        cli
        movl    $stack_top, %esp
        movl    $level3 + 3, level4     /* present, writable */
        movl    $level2 + 3, level3
        movl    $level2, %edi
        movl    $0x83, %eax             /* and 2 MiB each */
map:    movl    %eax, (%edi)
        addl    $0x200000, %eax
        addl    $8, %edi
        cmpl    $level2 + 4096, %edi
        jne     map
        movl    $level4, %eax
        movl    %eax, %cr3
        movl    %cr4, %eax
        orl     $0x620, %eax            /* PAE; OSFXSR and OSXMMEXCPT, so that SSE may be used */
        movl    %eax, %cr4
        movl    $0xc0000080, %ecx       /* EFER: long mode */
        rdmsr
        orl     $0x100, %eax
        wrmsr
        movl    %cr0, %eax
        andl    $0xfffffffb, %eax       /* no emulation of the coprocessor */
        orl     $0x80000003, %eax       /* paging; monitor the coprocessor; protected */
        movl    %eax, %cr0
        lgdt    segments_at
        ljmp    $8, $start64

        .code64
start64:
        movw    $16, %ax
        movw    %ax, %ds
        movw    %ax, %es
        movw    %ax, %ss
        movq    $stack_top, %rsp
        call    kernel_main             /* it does not return */

/* A fault of the processor is told, and that is the end. */
        .globl  fault_entry
fault_entry:
        andq    $-16, %rsp
        cld
        call    kernel_fault

/* The timer. What it interrupts may be in the middle of anything, so its registers are kept, those of SSE too, through which
 * the library moves data. */
        .balign 16
        .globl  timer_entry
timer_entry:
        pushq %rax; pushq %rcx; pushq %rdx; pushq %rsi; pushq %rdi
        pushq %r8; pushq %r9; pushq %r10; pushq %r11; pushq %rbp
        movq    %rsp, %rbp
        subq    $512, %rsp
        andq    $-16, %rsp
        fxsave64 (%rsp)
        cld
        call    kernel_tick
        fxrstor64 (%rsp)
        movq    %rbp, %rsp
        popq %rbp; popq %r11; popq %r10; popq %r9; popq %r8
        popq %rdi; popq %rsi; popq %rdx; popq %rcx; popq %rax
        iretq

/* The four functions that a compiler calls on its own. */
        .globl  memcpy, memmove, memset, memcmp
memcpy: movq %rdi, %rax; movq %rdx, %rcx
        rep movsb
        ret

memmove:
        movq %rdi, %rax; movq %rdx, %rcx
        movq %rdi, %r8; subq %rsi, %r8
        cmpq %rdx, %r8                  /* the target begins inside the source: from the end */
        jb 1f
        rep movsb
        ret
1:      leaq -1(%rdi, %rcx), %rdi; leaq -1(%rsi, %rcx), %rsi
        std
        rep movsb
        cld
        ret

memset: movq %rdi, %r8; movl %esi, %eax; movq %rdx, %rcx
        rep stosb
        movq %r8, %rax
        ret

memcmp: xorl %eax, %eax; movq %rdx, %rcx
        repe cmpsb
        je 1f
        movzbl -1(%rdi), %eax; movzbl -1(%rsi), %ecx
        subl %ecx, %eax
1:      ret

        .section .rodata
        .globl  script, script_end
script: .incbin "script"
script_end:

        .section .note.GNU-stack, "", @progbits
