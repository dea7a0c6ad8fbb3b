/* The header, and nothing before it. */
#include "../../../include/daunsrevit.h"

uint32_t self_test(void);
uint32_t self_test(void)
{
    return daunsrevit_self_test();
}
