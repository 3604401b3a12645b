#include "engine.h"

#include <JavaScriptCore/JavaScript.h>
#include <stdio.h>
#include <stdlib.h>
#include <string.h>

enum { LONGEST = 1 << 16 };

uint8_t staging[1024 * 65536];

static JSGlobalContextRef context;
static Calls called;

static JSStringRef string_of(const char *text) {
    return JSStringCreateWithUTF8CString(text);
}

static JSValueRef value_of_text(const char *text) {
    JSStringRef string = string_of(text);
    JSValueRef value = JSValueMakeString(context, string);
    JSStringRelease(string);
    return value;
}

static void text_of(JSValueRef value, char *text, size_t room) {
    JSStringRef string = JSValueToStringCopy(context, value, NULL);
    JSStringGetUTF8CString(string, text, room);
    JSStringRelease(string);
}

/* Ends the program where something was thrown that no guest throws. */
static void stop_at(JSValueRef thrown) {
    if (thrown != NULL) {
        char text[1000];
        text_of(thrown, text, sizeof text);
        fprintf(stderr, "engine: %s\n", text);
        exit(1);
    }
}

static HuxCore core_of(JSValueRef value) {
    HuxCore core = {0, 0};
    if (JSValueIsString(context, value)) {
        char text[40];
        text_of(value, text, sizeof text);
        core.bits = strtoull(text + 1, NULL, 10);
        core.kind = 1;
    } else {
        double number = JSValueToNumber(context, value, NULL);
        core.bits = number < 0 ? (uint32_t)(int32_t)number : (uint32_t)number;
    }
    return core;
}

static JSValueRef value_of(HuxCore core) {
    char text[40];
    if (core.kind == 0) {
        return JSValueMakeNumber(context, (double)(int32_t)(uint32_t)core.bits);
    }
    snprintf(text, sizeof text, "l%llu", (unsigned long long)core.bits);
    return value_of_text(text);
}

/* A guest calls out: instance, function and core values. */
static JSValueRef on_call(JSContextRef from, JSObjectRef function, JSObjectRef self, size_t count,
                          const JSValueRef words[], JSValueRef *thrown) {
    HuxCore values[HUX_MAX_CORE + 1], answer = {0, 0};
    uint32_t at[2];
    (void)from, (void)function, (void)self;
    for (size_t i = 0; i < 2; i++) {
        at[i] = (uint32_t)JSValueToNumber(context, words[i], NULL);
    }
    for (size_t i = 2; i < count && i < HUX_MAX_CORE + 3; i++) {
        values[i - 2] = core_of(words[i]);
    }
    if (!called(at[0], at[1], values, count - 2, &answer)) {
        *thrown = value_of_text("over");
    }
    return value_of(answer);
}

/* Has what is above a function of engine.js. */
static JSValueRef ask(const char *name, size_t count, const JSValueRef words[], JSValueRef *thrown) {
    JSStringRef string = string_of(name);
    JSValueRef found = JSEvaluateScript(context, string, NULL, NULL, 0, NULL);
    JSObjectRef function = JSValueToObject(context, found, NULL);
    JSStringRelease(string);
    return JSObjectCallAsFunction(context, function, NULL, count, words, thrown);
}

static JSValueRef asked(const char *name, size_t count, const JSValueRef words[]) {
    JSValueRef thrown = NULL, answer = ask(name, count, words, &thrown);
    stop_at(thrown);
    return answer;
}

static JSValueRef asked_of(const char *name, uint32_t instance, JSValueRef more) {
    JSValueRef words[] = {JSValueMakeNumber(context, instance), more};
    return asked(name, more == NULL ? 1 : 2, words);
}

static uint32_t number_of(JSValueRef value) {
    return (uint32_t)JSValueToNumber(context, value, NULL);
}

static void set_global(const char *name, JSValueRef value) {
    JSStringRef string = string_of(name);
    JSObjectSetProperty(context, JSContextGetGlobalObject(context), string, value, 0, NULL);
    JSStringRelease(string);
}

void begin_engine(const char *file, Calls calls) {
    static char source[LONGEST];
    FILE *from = fopen(file, "rb");
    JSValueRef thrown = NULL;
    if (from == NULL) {
        fprintf(stderr, "engine: no %s\n", file);
        exit(1);
    }
    source[fread(source, 1, sizeof source - 1, from)] = 0;
    fclose(from);
    called = calls;
    context = JSGlobalContextCreate(NULL);
    set_global("call", JSObjectMakeFunctionWithCallback(context, NULL, on_call));
    set_global("staging", JSObjectMakeTypedArrayWithBytesNoCopy(
                              context, kJSTypedArrayTypeUint8Array, staging, sizeof staging, NULL,
                              NULL, &thrown));
    stop_at(thrown);
    JSStringRef string = string_of(source);
    JSEvaluateScript(context, string, NULL, NULL, 0, &thrown);
    JSStringRelease(string);
    stop_at(thrown);
}

void end_engine(void) {
    JSGlobalContextRelease(context);
}

void plan_part(uint32_t instance, const HuxPlanPart *part, const uint8_t *bytes) {
    JSValueRef thrown = NULL;
    JSObjectRef buffer = JSObjectMakeArrayBufferWithBytesNoCopy(
        context, (void *)(uintptr_t)bytes, part->length, NULL, NULL, &thrown);
    stop_at(thrown);
    JSValueRef words[] = {JSValueMakeNumber(context, instance),
                          JSValueMakeNumber(context, part->kind),
                          JSValueMakeNumber(context, part->index),
                          JSValueMakeNumber(context, part->sort),
                          JSValueMakeNumber(context, (double)part->count),
                          buffer};
    asked("plan", 6, words);
}

uint32_t pages_of(uint32_t instance) {
    return number_of(asked_of("pages", instance, NULL));
}

uint32_t first_of(uint32_t instance) {
    return number_of(asked_of("first", instance, NULL));
}

uint32_t maker_of(uint32_t instance, const char *name) {
    return number_of(asked_of("maker", instance, value_of_text(name)));
}

void name_of(uint32_t instance, uint32_t func, char *name, size_t room) {
    text_of(asked_of("lifted", instance, JSValueMakeNumber(context, func)), name, room);
}

int run_func(uint32_t instance, uint32_t func, const HuxCore *values, size_t count,
             HuxCore *answer) {
    JSValueRef words[HUX_MAX_CORE + 2], thrown = NULL;
    words[0] = JSValueMakeNumber(context, instance);
    words[1] = JSValueMakeNumber(context, func);
    for (size_t at = 0; at < count; at++) {
        words[at + 2] = value_of(values[at]);
    }
    JSValueRef found = ask("run", count + 2, words, &thrown);
    if (thrown != NULL) {
        return -1;
    }
    if (JSValueIsUndefined(context, found)) {
        return 0;
    }
    *answer = core_of(found);
    return 1;
}

size_t take_memory(uint32_t instance) {
    return number_of(asked_of("take", instance, NULL));
}

void give_memory(uint32_t instance, uint32_t at, size_t length) {
    JSValueRef words[] = {JSValueMakeNumber(context, instance), JSValueMakeNumber(context, at),
                          JSValueMakeNumber(context, (double)length)};
    asked("give", 3, words);
}

void grow_memory(uint32_t instance, uint32_t pages) {
    asked_of("grow", instance, JSValueMakeNumber(context, pages));
}
