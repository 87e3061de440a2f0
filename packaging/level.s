# The processor level that a program needs, x86-64-vLEVEL, as a bit of GNU_PROPERTY_X86_ISA_1_NEEDED. On a lesser
# processor the C library's loader prints one line and ends the program with status 127.
	.section .note.level, "a", @note
	.p2align 3
	.long 4, 16, 5
	.asciz "GNU"
	.long 0xc0008002, 4, 1 << (LEVEL - 1), 0
