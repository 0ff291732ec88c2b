// For compilers that come without headers of their own, as the toolchain's.
#pragma once
typedef __SIZE_TYPE__ size_t;
#define NULL ((void *)0)
