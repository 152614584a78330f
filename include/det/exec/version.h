/* The version of the headers and of the library, and the tag of their layout.
 *
 * DET_LAYOUT grows with each change of a struct of the C headers or of what a call means. The
 * library exports one function that is named after its layout. An object file that was compiled for
 * another layout doesn't link: "undefined reference to det_layout_2". */
#ifndef DET_EXEC_VERSION_H
#define DET_EXEC_VERSION_H

#define DET_VERSION_MAJOR 0
#define DET_VERSION_MINOR 1
#define DET_VERSION_PATCH 0
#define DET_VERSION (DET_VERSION_MAJOR * 1000000u + DET_VERSION_MINOR * 1000u + DET_VERSION_PATCH)
#define DET_VERSION_TEXT "0.1.0"
#define DET_LAYOUT 1

#ifdef __cplusplus
extern "C" {
#endif

/* DET_VERSION of the library that is linked. */
unsigned det_library_version(void);

/* Does nothing. A call binds an object file to the layout of the library. */
void det_layout_1(void);

#ifdef __cplusplus
}
#endif

/* The inline namespace of all C++ names. It has a name for each way in which the headers can be
 * compiled, so source files that were compiled in two ways don't link. A program that has ara::core
 * defines DET_EXEC_ARA_CORE as 1 for all its sources. */
#ifdef __cplusplus
#if !defined(DET_EXEC_ARA_CORE)
#define DET_EXEC_ARA_CORE 0
#endif
#if DET_EXEC_ARA_CORE && defined(__cpp_exceptions)
#define DET_EXEC_ABI v1_core
#elif DET_EXEC_ARA_CORE
#define DET_EXEC_ABI v1_core_no_exceptions
#elif defined(__cpp_exceptions)
#define DET_EXEC_ABI v1
#else
#define DET_EXEC_ABI v1_no_exceptions
#endif
#endif

#endif
