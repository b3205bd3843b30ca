/* What the functions that calls.awk writes stand on. The module's own give up to 16 bytes in r0 to
 * r3, and take a record of up to 8 bytes as a number in two registers. C on 32-bit Arm gives a struct
 * of more than 4 bytes through a pointer that comes first, and takes one word by word. */
#include "charkhavo.h"

/* No function passes a floating number: callers of either convention for those may link these. */
__asm__(".eabi_attribute Tag_ABI_VFP_args, 3");

/* r0 to r3 as a result: the base calling convention gives a vector of 16 bytes in them. */
typedef uint32_t Registers __attribute__((vector_size(16)));
#define IN_REGISTERS __attribute__((pcs("aapcs")))

/* Gives what stands in the registers as a result of its C type. */
#define GIVE(type, call)                                                             \
    __typeof__(call) given = call;                                                   \
    type result;                                                                     \
    _Static_assert(sizeof result <= sizeof given, #type " is longer than its registers"); \
    __builtin_memcpy(&result, &given, sizeof result);                                \
    return result

/* A record's bytes as a number; what stands above them is not looked at. */
#define AS_NUMBER(record) (((union { __typeof__(record) bytes; uint64_t number; }){record}).number)
