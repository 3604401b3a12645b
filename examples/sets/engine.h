/* An engine for core modules: JavaScriptCore, by engine.js. */
#ifndef ENGINE_H
#define ENGINE_H

#include "huxarte.h"

/* Bytes of a guest's memory, as take_memory found them and as give_memory hands them over. */
extern uint8_t staging[1024 * 65536];

/* Begins: the file of engine.js, and what is called where a guest calls out. It answers its core
 * value, and 0 where all that is on the stack is over. */
typedef int (*Calls)(uint32_t instance, uint32_t func, const HuxCore *values, size_t count,
                     HuxCore *answer);
void begin_engine(const char *file, Calls calls);
void end_engine(void);

/* Instantiates a part of the plan of a component, which has these bytes. */
void plan_part(uint32_t instance, const HuxPlanPart *part, const uint8_t *bytes);

/* What came of the plan: pages at first, the first function that is lifted, what makes handles of a
 * resource of a name, and the name under which a core module exports a function. */
uint32_t pages_of(uint32_t instance);
uint32_t first_of(uint32_t instance);
uint32_t maker_of(uint32_t instance, const char *name);
void name_of(uint32_t instance, uint32_t func, char *name, size_t room);

/* Runs a core function: how many core values it answers, or -1 where it trapped. */
int run_func(uint32_t instance, uint32_t func, const HuxCore *values, size_t count,
             HuxCore *answer);

/* How many bytes the memory has, which are then in staging. */
size_t take_memory(uint32_t instance);

/* Puts the first bytes of staging into the memory, from `at` on. */
void give_memory(uint32_t instance, uint32_t at, size_t length);

/* Grows the memory of a guest by pages. */
void grow_memory(uint32_t instance, uint32_t pages);

#endif
