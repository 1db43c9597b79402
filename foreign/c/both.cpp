/* The header in C++. */
#include "milunovesk.h"

int main() {
    mv_handle handle = {};
    mv_free(&handle);
    return mv_version() == 1 ? 0 : 1;
}
