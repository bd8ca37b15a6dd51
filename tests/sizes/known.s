# Functions whose code, constants and stack are known: what tests/sizes/check.py holds bench/sizes to. Each stack counts the return address, 8.

# begin NAME: a function in a section of its own.
	.macro	begin name
	.section .text.\name,"ax",@progbits
	.globl	\name
	.type	\name, @function
\name:
	.endm

	.macro	end name
	.size	\name, . - \name
	.endm

# 8 + 16 pushed + 96 = 120
	begin	framed
	push	%rbx
	push	%rbp
	sub	$96, %rsp
	movb	$1, (%rsp)
	add	$96, %rsp
	pop	%rbp
	pop	%rbx
	ret
	end	framed

# 8 + 64 below the stack pointer = 72
	begin	below_pointer
	movb	$1, -64(%rsp)
	ret
	end	below_pointer

# a way that returns stands before the one that goes deep: 8 + 8 + 1000 = 1016
	begin	returns_early
	push	%rbx
	test	%edi, %edi
	je	1f
	pop	%rbx
	ret
1:	sub	$1000, %rsp
	movb	$1, (%rsp)
	add	$1000, %rsp
	pop	%rbx
	ret
	end	returns_early

# a chain of three: 8 + 24, then 8 + 40, then framed: 32 + 48 + 120 = 200
	begin	chain
	sub	$24, %rsp
	call	chain_second
	add	$24, %rsp
	ret
	end	chain

	begin	chain_second
	sub	$40, %rsp
	call	framed
	add	$40, %rsp
	ret
	end	chain_second

# the frame is left before the jump: framed's 120, and not more
	begin	jumps_on
	sub	$64, %rsp
	add	$64, %rsp
	jmp	framed
	end	jumps_on

# the frame is kept at the jump, as a cold part's: 8 + 64 and framed's 112 below its return address, 184
	begin	jumps_within
	sub	$64, %rsp
	jmp	framed
	end	jumps_within

# 8 + 8 pushed + at most 56 to a multiple of 64 + 128 = 200
	begin	aligned
	push	%rbp
	mov	%rsp, %rbp
	and	$-64, %rsp
	sub	$128, %rsp
	movb	$1, (%rsp)
	leave
	ret
	end	aligned

# three pages touched one by one: 8 + 12288 + 16 = 12312
	begin	page_by_page
	lea	-0x3000(%rsp), %r11
1:	sub	$0x1000, %rsp
	movq	$0, (%rsp)
	cmp	%r11, %rsp
	jne	1b
	sub	$16, %rsp
	add	$0x3010, %rsp
	ret
	end	page_by_page

# a register goes through the frame in a loop, the stack pointer stays: 8 + 8192 = 8200
	begin	walks_frame
	sub	$8192, %rsp
	lea	16(%rsp), %r11
1:	movb	$1, (%r11)
	add	$2, %r11
	cmp	%rdi, %r11
	jne	1b
	add	$8192, %rsp
	ret
	end	walks_frame

# of five calls open at once: 4 * (8 + 24) and, in the last, chain_second: 32 + 168 = 328
	begin	recursive
	sub	$24, %rsp
	dec	%edi
	js	1f
	call	recursive
1:	call	chain_second
	add	$24, %rsp
	ret
	end	recursive

# two that call each other, 8 + 8 and 8 + 24; of three calls of the first: 2 * 48 + 16 + 32 = 144
	begin	one_of_two
	push	%rbx
	call	other_of_two
	pop	%rbx
	ret
	end	one_of_two

	begin	other_of_two
	sub	$24, %rsp
	call	one_of_two
	add	$24, %rsp
	ret
	end	other_of_two

# by a table of 8 octets: 8, and at one of its places a call of framed at 16: 136
	begin	by_table
	lea	places(%rip), %rax
	movslq	(%rax,%rdi,4), %rdi
	add	%rax, %rdi
	jmp	*%rdi
1:	ret
2:	push	%rbx
	call	framed
	pop	%rbx
	ret
	end	by_table
	.section .rodata.places,"a",@progbits
places:
	.long	1b - places, 2b - places

# by two tables behind each other, each of whose entries count from its own start; the deepest place is behind the second: 8 + 8 + 504 = 520
	begin	by_two_tables
	lea	first_places(%rip), %rax
	movslq	(%rax,%rdi,4), %rdi
	add	%rax, %rdi
	jmp	*%rdi
1:	ret
2:	push	%rbx
	lea	second_places(%rip), %rax
	movslq	(%rax,%rsi,4), %rsi
	add	%rax, %rsi
	jmp	*%rsi
3:	pop	%rbx
	ret
4:	sub	$504, %rsp
	add	$504, %rsp
	pop	%rbx
	ret
	end	by_two_tables
	.section .rodata.two,"a",@progbits
first_places:
	.long	1b - first_places, 2b - first_places
second_places:
	.long	3b - second_places, 4b - second_places

# what the archive has not: 8 + 8, and 8 for the call = 24
	begin	calls_library
	sub	$8, %rsp
	call	memcpy@PLT
	add	$8, %rsp
	ret
	end	calls_library

# 300 octets that a symbol tells the size of; 40 up to the next that is referred to
	begin	reads_sized
	movzbl	sized+7(%rip), %eax
	ret
	end	reads_sized

	begin	reads_unsized
	movzbl	unsized(%rip), %eax
	ret
	end	reads_unsized

	begin	reads_next
	movzbl	next(%rip), %eax
	ret
	end	reads_next
	.section .rodata.both,"a",@progbits
	.type	sized, @object
sized:
	.fill	300
	.size	sized, 300
unsized:
	.fill	40
next:
	.fill	5

# a function by its address in a constant: 8 of the constant, and framed's code
	begin	names_by_address
	mov	pointer(%rip), %rax
	ret
	end	names_by_address
	.section .data.rel.ro.pointer,"aw",@progbits
pointer:
	.quad	framed

# what cannot be told: a frame of a size that varies, and a call by a pointer
	begin	varies
	sub	%rdi, %rsp
	ret
	end	varies

	begin	by_pointer
	sub	$8, %rsp
	call	*%rdi
	add	$8, %rsp
	ret
	end	by_pointer

	.section .note.GNU-stack,"",@progbits
