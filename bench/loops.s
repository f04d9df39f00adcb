# Functions that bench/library calls, for plhost and for machine.c. They need no binding: the host function memcpy is called at its
# place, 0x240.
    .text

    .globl nothing
    .type nothing, @function
nothing:
    ret

# 9,000,000 instructions, three a turn.
    .globl spin
    .type spin, @function
spin:
    li a1, 3000000
    li a0, 0
1:  addi a0, a0, 3
    addi a1, a1, -1
    bnez a1, 1b
    ret

# 500,000 calls of memcpy of 16 bytes.
    .globl copies
    .type copies, @function
copies:
    addi sp, sp, -64
    sd ra, 0(sp)
    sd s0, 8(sp)
    li s0, 500000
1:  addi a0, sp, 16
    addi a1, sp, 32
    li a2, 16
    li t0, 0x240
    jalr t0
    addi s0, s0, -1
    bnez s0, 1b
    ld s0, 8(sp)
    ld ra, 0(sp)
    addi sp, sp, 64
    li a0, 0
    ret
