#pragma once
#define SIGSEGV 11
