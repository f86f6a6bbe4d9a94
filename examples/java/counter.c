/* SPDX-License-Identifier: Apache-2.0 */
/*
 * The native methods of Counter.java: calls of libhll on Java's arrays where they are. The garbage collector waits from Get to
 * Release, so nothing else stands between them. What C doesn't change is released with JNI_ABORT.
 */
#include <hll.h>
#include <jni.h>
#include <string.h>

JNIEXPORT jint JNICALL Java_Counter_add(JNIEnv *env, jclass class, jbyteArray registers, jbyteArray values, jint count)
{
    size_t size = (size_t)(*env)->GetArrayLength(env, registers);
    void *to, *from;
    hll_status status = HLL_MEMORY;

    (void)class;
    to = (*env)->GetPrimitiveArrayCritical(env, registers, NULL);
    from = to == NULL ? NULL : (*env)->GetPrimitiveArrayCritical(env, values, NULL);
    if (from != NULL) {
        status = hll_registers_add_fixed(to, size, from, 8 * (size_t)count, 8);
        (*env)->ReleasePrimitiveArrayCritical(env, values, from, JNI_ABORT);
    }
    if (to != NULL)
        (*env)->ReleasePrimitiveArrayCritical(env, registers, to, 0);
    return status;
}

JNIEXPORT jint JNICALL Java_Counter_merge(JNIEnv *env, jclass class, jbyteArray registers, jbyteArray image)
{
    size_t size = (size_t)(*env)->GetArrayLength(env, registers), len = (size_t)(*env)->GetArrayLength(env, image);
    void *to, *from;
    hll_status status = HLL_MEMORY;

    (void)class;
    to = (*env)->GetPrimitiveArrayCritical(env, registers, NULL);
    from = to == NULL ? NULL : (*env)->GetPrimitiveArrayCritical(env, image, NULL);
    if (from != NULL) {
        status = hll_registers_merge(to, size, from, len, NULL);
        (*env)->ReleasePrimitiveArrayCritical(env, image, from, JNI_ABORT);
    }
    if (to != NULL)
        (*env)->ReleasePrimitiveArrayCritical(env, registers, to, 0);
    return status;
}

JNIEXPORT jint JNICALL Java_Counter_estimate(JNIEnv *env, jclass class, jbyteArray registers, jdoubleArray found)
{
    size_t size = (size_t)(*env)->GetArrayLength(env, registers);
    hll_estimation said = {0};
    jdouble numbers[8];
    hll_status status = HLL_MEMORY;
    void *from = (*env)->GetPrimitiveArrayCritical(env, registers, NULL);

    (void)class;
    if (from != NULL) {
        status = hll_registers_estimate(from, size, &said);
        (*env)->ReleasePrimitiveArrayCritical(env, registers, from, JNI_ABORT);
    }
    memcpy(numbers, &said, sizeof numbers);
    if (status == HLL_OK)
        (*env)->SetDoubleArrayRegion(env, found, 0, 8, numbers);
    return status;
}
