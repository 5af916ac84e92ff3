/* stddef.h for the toolchain's compiler, which comes without headers: what llobatelh.h and the programs here ask for. */
#ifndef FREESTANDING_STDDEF_H
#define FREESTANDING_STDDEF_H

typedef __SIZE_TYPE__ size_t;

#define NULL ((void *)0)

#endif
