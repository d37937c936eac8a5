/*
 * The library for C, and for any language that calls C: rt lib, in crates/{crate}, writes
 * {archive}, to be linked into x86-64 Linux programs.
 *
 * A slice is passed as a pointer and, right after it, its length in entries. The pointer is never
 * NULL, not even where the length is 0. Everything that a call writes to is lent to it alone: no
 * two of a call's pointers may reach the same memory unless both are const.
 *
 * Each call returns the number of the refusal, or 0 for none: 1 to 13 send the game file back,
 * 14 to 16 the plan file, 19 to 21 the play sheet, 17 is a number or a table that a writer cannot
 * take, and 18 a result buffer that is too short. On a refusal everything lent keeps what it held.
 * Otherwise the results stand at the front of their buffers, and what lies past them keeps what it
 * held.
 *
 * Nothing is kept between calls, so calls may be made from several threads. A call works on its
 * stack: 2 MiB are enough as measured; nothing proves it.
 *
 * Written by native/derived_files from {source}.
 */
#ifndef DESK_H
#define DESK_H

#include <stddef.h>
#include <stdint.h>

#ifdef __cplusplus
extern "C" {
#endif

{exports}
#ifdef __cplusplus
}
#endif

#endif
