/* The kit's compiler comes without headers; hostozaro.h needs these names of them. */
#pragma once
typedef __UINT8_TYPE__ uint8_t;
typedef __UINT64_TYPE__ uint64_t;
