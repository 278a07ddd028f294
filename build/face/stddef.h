/* As stdint.h here. */
#pragma once
typedef __SIZE_TYPE__ size_t;
