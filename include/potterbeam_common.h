/*
 * What the headers of the Potterbeam kit share: the version of the kit, its check at link time, and macros for compilers that can warn.
 * Each header includes this one; a program need not include it. For C11 and C++11 or later.
 */
#ifndef POTTERBEAM_COMMON_H
#define POTTERBEAM_COMMON_H

#include <stddef.h>
#include <stdint.h>

/* Version of the kit: of all its headers and archives. */
#define PBEAM_VERSION_MAJOR 0
#define PBEAM_VERSION_MINOR 4
#define PBEAM_VERSION_PATCH 0

/* An assertion at compile time. */
#ifdef __cplusplus
#define PBEAM_ASSERT(holds, text) static_assert(holds, text)
#else
#define PBEAM_ASSERT(holds, text) _Static_assert(holds, text)
#endif

/* The archives are for machines with 64-bit pointers and sizes (LP64). With another size_t no prototype with a length would match its function. */
PBEAM_ASSERT(sizeof(size_t) == 8, "potterbeam: size_t has 64 bits");

/* A cast that no compiler warns of, also as C++ with -Wold-style-cast. */
#ifdef __cplusplus
#define PBEAM_CAST(type, value) static_cast<type>(value)
#else
#define PBEAM_CAST(type, value) ((type)(value))
#endif

/* For compilers that can warn:
 * PBEAM_NONNULL(i, j)  arguments i and j, counted from 1, must not be NULL.
 * PBEAM_MUST_CHECK     the caller must use the result. Without it he cannot know whether anything was written. */
#if defined(__GNUC__) || defined(__clang__)
#define PBEAM_NONNULL(...) __attribute__((nonnull(__VA_ARGS__)))
#define PBEAM_MUST_CHECK __attribute__((warn_unused_result))
#else
#define PBEAM_NONNULL(...)
#define PBEAM_MUST_CHECK
#endif

/* Memory that the function writes through this parameter overlaps no other argument. PBEAM_RESTRICT is for a pointer, and
 * PBEAM_RESTRICT_WORDS for an array of words, which has no such form in C++. */
#ifndef __cplusplus
#define PBEAM_RESTRICT restrict
#define PBEAM_RESTRICT_WORDS restrict
#elif defined(__GNUC__) || defined(__clang__)
#define PBEAM_RESTRICT __restrict
#define PBEAM_RESTRICT_WORDS
#else
#define PBEAM_RESTRICT
#define PBEAM_RESTRICT_WORDS
#endif

/*
 * The version at link time. Each archive exports a function whose name ends with its version, for example pbeam_version_0_4_0. Each header
 * has a constant that points at it, so an object that was compiled with the header of another version does not link: "undefined reference to
 * pbeam_version_0_4_0" means that the header has version 0.4.0, and the archive has another one or is missing.
 *
 * It takes one pointer of constant data (8 bytes) for each archive in each object file that includes its header. With --gc-sections the
 * pointer stays if the compiler has the attribute `retain` (GCC 11, Clang 13); with an older compiler the linker drops it, and the check with
 * it. Define PBEAM_NO_VERSION_CHECK before the headers in a file that uses only their constants and types and is linked with no archive.
 */
#define PBEAM_JOINED(name, major, minor, patch) name##_##major##_##minor##_##patch
#define PBEAM_WITH_VERSION(name, major, minor, patch) PBEAM_JOINED(name, major, minor, patch)
#define PBEAM_VERSIONED(name) PBEAM_WITH_VERSION(name, PBEAM_VERSION_MAJOR, PBEAM_VERSION_MINOR, PBEAM_VERSION_PATCH)

#ifdef __cplusplus
#define PBEAM_C_FUNCTION extern "C"
#else
#define PBEAM_C_FUNCTION extern
#endif

#ifdef __has_attribute
#if __has_attribute(retain)
#define PBEAM_STAYS __attribute__((used, retain))
#endif
#endif
#if !defined(PBEAM_STAYS) && (defined(__GNUC__) || defined(__clang__))
#define PBEAM_STAYS __attribute__((used))
#endif

/* PBEAM_LINKS(name): declares the archive's function, and the constant that points at it. The function returns the version as a number:
 * major * 65,536 + minor * 256 + patch. */
#if defined(PBEAM_STAYS) && !defined(PBEAM_NO_VERSION_CHECK)
#define PBEAM_LINKS(name)                                 \
    PBEAM_C_FUNCTION uint64_t PBEAM_VERSIONED(name)(void); \
    PBEAM_STAYS static uint64_t (*const name##_of_header)(void) = PBEAM_VERSIONED(name)
#else
#define PBEAM_LINKS(name) PBEAM_C_FUNCTION uint64_t PBEAM_VERSIONED(name)(void)
#endif

#endif
