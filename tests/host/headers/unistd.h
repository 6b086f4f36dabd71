#pragma once
int fork(void);
int close(int file);
__attribute__((noreturn)) void _exit(int status);
