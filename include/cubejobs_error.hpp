/* The error that owners for C++ throw. The headers with owners include this one. */
#ifndef CUBEJOBS_ERROR_HPP
#define CUBEJOBS_ERROR_HPP

#include <cstdint>
#include <stdexcept>

#include "cubejobs_codes.h"

namespace cubejobs {

#if defined(__cpp_exceptions) || defined(__EXCEPTIONS)
#define CUBEJOBS_THROWS 1
/* The error of an owner that was not opened, or of lanes that cannot end, with its code. */
struct error : std::runtime_error {
    explicit error(std::uint32_t number) : std::runtime_error(cubejobs_code_text(number)), code(number) {}
    std::uint32_t code;
};

inline void check(std::uint32_t code) {
    if (code) throw error(code);
}
#else
inline void check(std::uint32_t) {}
#endif
}

#endif
