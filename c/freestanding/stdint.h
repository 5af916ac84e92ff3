/* stdint.h for the toolchain's compiler, which comes without headers: what llobatelh.h and the programs here ask for. */
#ifndef FREESTANDING_STDINT_H
#define FREESTANDING_STDINT_H

typedef __UINT8_TYPE__ uint8_t;
typedef __UINT32_TYPE__ uint32_t;
typedef __UINT64_TYPE__ uint64_t;

#define UINT32_MAX __UINT32_MAX__
#define UINT64_MAX __UINT64_MAX__

#endif
