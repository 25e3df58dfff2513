#!/bin/sh
# Gives a text with every form of line to GNU's assembler, where it is installed.
set -eu
if ! command -v as >/dev/null 2>&1; then
    echo "skipped: as isn't installed"
    exit 0
fi
folder=$(mktemp -d)
trap 'rm -rf "$folder"' EXIT

# The lines of mnemonics with the same operands: each OPERANDS MNEMONIC..
each() {
    operands=$1
    shift
    for mnemonic; do
        printf '\t%s %s\n' "$mnemonic" "$operands"
    done
}

{
    printf '.text\n.globl every_form\nevery_form:\n'
    each '%rcx, %rax' movq imulq adcxq adoxq
    each '0(%rsi), %rax' movq imulq adcxq movzbq
    each '-8(%rsi,%rcx,8), %r15' movzbq
    each '4(%rsi), %eax' movl
    each '4(%rsi,%rcx,2), %r15d' movl
    each '%r10d, 2147483647(%rdi)' movl
    each '%ebp, 0(%rdi,%r8,1)' movl
    each '%rax, 0(%rsi)' movq
    each '-8(%rsi,%rcx,8), %rax' movq leaq adoxq
    each '%r10, 2147483647(%rdi,%r8,1)' movq
    each '$18446744073709551615, %r15' movabsq
    each '$0, %rax' movabsq
    each '16(%rdi,%r8,2), %rax' leaq
    each '%r10, %rax' cmove cmovne cmovb cmovbe cmova cmovae
    each '%rbx' pushq popq negq notq mulq
    each '8(%r12)' mulq
    for operands in '%rcx, %rax' '$-2147483648, %rax' '8(%rsi), %rax'; do
        each "$operands" addq adcq subq sbbq cmpq andq orq xorq
    done
    for count in 1 63; do
        each "\$$count, %rdx" shlq shrq rolq rorq
    done
    each '%rcx, %r10, %rax' mulxq
    each '24(%rsi), %r10, %rax' mulxq
    each '%xmm12, %xmm0' movdqu pxor pand por paddd paddq pshufb punpcklqdq punpckhqdq aesenc aesenclast
    for choice in 0 1 16 17; do
        each "\$$choice, %xmm12, %xmm0" pclmulqdq
    done
    each '0(%rsi), %xmm0' movdqu
    each '%xmm12, 0(%rdi)' movdqu
    each '$255, %xmm12, %xmm0' pshufd
    each '$15, %xmm12' pslld psrld pslldq psrldq
    each '$1, %r10, %xmm0' pinsrq
    each '$0, %xmm12, %rax' pextrq
    each '%r10, %xmm0' movq
    printf 'L0:\n'
    each L0 jmp je jne jb jbe ja jae
    printf '\tret\n.globl another\nanother:\n\tret\n'
} >"$folder/all.s"
as --64 -o "$folder/all.o" "$folder/all.s"
echo "as takes all forms"
