/* See stddef.h. */
#ifndef KIT_STDINT_H
#define KIT_STDINT_H

typedef __UINT8_TYPE__ uint8_t;
typedef __UINT32_TYPE__ uint32_t;

#endif
