/* For a compiler that comes without C headers, as the kit's clang does: what orohkaril.h asks for, by the compiler's own names. */
#ifndef OROHKARIL_EXAMPLE_STDINT
#define OROHKARIL_EXAMPLE_STDINT
typedef __UINT8_TYPE__ uint8_t;
typedef __UINT32_TYPE__ uint32_t;
typedef __UINT64_TYPE__ uint64_t;
#endif
