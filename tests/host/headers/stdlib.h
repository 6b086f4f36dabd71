#pragma once
#include <stddef.h>
void *malloc(size_t size);
__attribute__((noreturn)) void exit(int status);
