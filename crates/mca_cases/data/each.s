# One instruction of each opcode of RV64IM.
    lui a0, 1
    auipc a0, 1
    addi a0, a1, 1
    slti a0, a1, 1
    sltiu a0, a1, 1
    xori a0, a1, 1
    ori a0, a1, 1
    andi a0, a1, 1
    slli a0, a1, 1
    srli a0, a1, 1
    srai a0, a1, 1
    add a0, a1, a2
    sub a0, a1, a2
    slt a0, a1, a2
    sltu a0, a1, a2
    xor a0, a1, a2
    or a0, a1, a2
    and a0, a1, a2
    sll a0, a1, a2
    srl a0, a1, a2
    sra a0, a1, a2
    jal ra, f
    jalr ra, 0(a0)
    beq a0, a1, f
    bne a0, a1, f
    blt a0, a1, f
    bge a0, a1, f
    bltu a0, a1, f
    bgeu a0, a1, f
    lb a0, 0(a1)
    lbu a0, 0(a1)
    lh a0, 0(a1)
    lhu a0, 0(a1)
    lw a0, 0(a1)
    sb a0, 0(a1)
    sh a0, 0(a1)
    sw a0, 0(a1)
    fence
    fence.tso
    ecall
    ebreak
    addiw a0, a1, 1
    slliw a0, a1, 1
    srliw a0, a1, 1
    sraiw a0, a1, 1
    addw a0, a1, a2
    subw a0, a1, a2
    sllw a0, a1, a2
    srlw a0, a1, a2
    sraw a0, a1, a2
    lwu a0, 0(a1)
    ld a0, 0(a1)
    sd a0, 0(a1)
    mul a0, a1, a2
    mulh a0, a1, a2
    mulhsu a0, a1, a2
    mulhu a0, a1, a2
    mulw a0, a1, a2
    div a0, a1, a2
    divu a0, a1, a2
    rem a0, a1, a2
    remu a0, a1, a2
    divw a0, a1, a2
    divuw a0, a1, a2
    remw a0, a1, a2
    remuw a0, a1, a2
