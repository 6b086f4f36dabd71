// The kit's compiler brings no header files. In this folder is what the C programs that tests/host/run builds use of
// the C library's, as the kit's C library for x86-64 has it, and nothing else.
#pragma once
typedef __SIZE_TYPE__ size_t;
#define NULL ((void *)0)
