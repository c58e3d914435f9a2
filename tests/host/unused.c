/* The header alone, nothing of it used: no warning either. */
#include "rembasuk.h"

int main(void)
{
    return 0;
}
