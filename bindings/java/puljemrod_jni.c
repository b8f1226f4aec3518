/* The native methods of Puljemrod.java. A handle is in memory of its own, so that it never
 * moves. */
#include "puljemrod.h"

#include <jni.h>
#include <stdlib.h>

static puljemrod *handle_at(jlong at) {
    return (puljemrod *)(intptr_t)at;
}

JNIEXPORT jint JNICALL Java_Puljemrod_versionNumber(JNIEnv *env, jclass class) {
    (void)env, (void)class;
    return (jint)puljemrod_version();
}

JNIEXPORT jlong JNICALL Java_Puljemrod_open(JNIEnv *env, jclass class, jint shards, jint work, jint invalidate,
                                            jint pend, jlong first_round, jlong first_call, jlong secret,
                                            jint nodes, jint storages, jintArray code_out) {
    (void)class;
    puljemrod *handle = calloc(1, sizeof *handle);
    puljemrod_options options = {
        (uint32_t)shards,      (uint32_t)work,       (uint32_t)invalidate, (uint32_t)pend,
        (uint64_t)first_round, (uint64_t)first_call, (uint64_t)secret,     (uint32_t)nodes,
        (uint32_t)storages,
    };
    jint code = handle == NULL ? PULJEMROD_MEMORY : (jint)puljemrod_open(handle, &options);
    (*env)->SetIntArrayRegion(env, code_out, 0, 1, &code);
    if (code != PULJEMROD_OK) {
        free(handle);
        return 0;
    }
    return (jlong)(intptr_t)handle;
}

/* The code of the line. Where Java has no memory for its bytes, the line is not taken. */
JNIEXPORT jint JNICALL Java_Puljemrod_answer(JNIEnv *env, jclass class, jlong at, jbyteArray line) {
    (void)class;
    jsize line_len = (*env)->GetArrayLength(env, line);
    jbyte *bytes = (*env)->GetByteArrayElements(env, line, NULL);
    if (bytes == NULL) return PULJEMROD_MEMORY;
    size_t len;
    uint32_t code = puljemrod_line(handle_at(at), bytes, (size_t)line_len, &len);
    (*env)->ReleaseByteArrayElements(env, line, bytes, JNI_ABORT);
    return (jint)code;
}

/* The length of the last answer's text; -1 where memory is refused for it. */
JNIEXPORT jlong JNICALL Java_Puljemrod_textLength(JNIEnv *env, jclass class, jlong at) {
    (void)env, (void)class;
    size_t len;
    return puljemrod_text(handle_at(at), &len) == PULJEMROD_NO_TEXT ? -1 : (jlong)len;
}

/* Copies the last answer into an array of its length. */
JNIEXPORT void JNICALL Java_Puljemrod_copy(JNIEnv *env, jclass class, jlong at, jbyteArray text) {
    (void)class;
    jbyte piece[4096];
    size_t from = 0, count;
    while ((count = puljemrod_answer(handle_at(at), from, piece, sizeof piece)) > 0) {
        (*env)->SetByteArrayRegion(env, text, (jsize)from, (jsize)count, piece);
        from += count;
    }
}

JNIEXPORT void JNICALL Java_Puljemrod_close(JNIEnv *env, jclass class, jlong at) {
    (void)env, (void)class;
    puljemrod_close(handle_at(at));
    free(handle_at(at));
}
