// Named caches with the behaviour of JSR 107 (JCache 1.1), in C++20, over the library of jcache.h.
//
// Keys and names have 1 to 63 bytes of UTF-8, values at most 65,535 bytes, moments are milliseconds. Manager and Cache may
// be used by several threads. Both throw Error; `without_exceptions()` gives the same object whose calls return a Result.
#ifndef JCACHE_HPP
#define JCACHE_HPP

#include "jcache/manager.hpp"

#endif
