/*
 * The calls from C++: the cap and the floor of the path of five for two crews, the cap of no crew, and the check of no bytes.
 */
#include "hipstern.h"

#include <iostream>

int main()
{
    const uint8_t none = 0;

    std::cout << hipstern_load_cap(5, 2, 200) << ' ' << hipstern_minimum_load(5, 2, 200) << ' '
              << (hipstern_load_cap(5, 0, 200) == HIPSTERN_NO_LOAD) << ' ' << hipstern_link_file_cause(&none, 0) << '\n';
    return 0;
}
