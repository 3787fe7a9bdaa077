/* What Goodlock.java declares, by goodlock.h. A handle's long is the address of its struct, which stands until it is
 * freed. */
#include "goodlock.h"

#include <jni.h>
#include <stdlib.h>
#include <string.h>

/* Throws unless the call was done; whether it was. */
static bool is_done(JNIEnv *env, uint32_t code)
{
    if (code != GOODLOCK_OK)
        (*env)->ThrowNew(env, (*env)->FindClass(env, "java/lang/IllegalStateException"), goodlock_says(code));
    return code == GOODLOCK_OK;
}

static jlong number_of(void *handle)
{
    return (jlong)(intptr_t)handle;
}

static void *handle_of(jlong number)
{
    return (void *)(intptr_t)number;
}

JNIEXPORT jlong JNICALL Java_Goodlock_open(JNIEnv *env, jclass class, jlong number, jint threads, jint ring)
{
    goodlock_session *session = calloc(1, sizeof *session);
    (void)class;
    if (session == NULL) {
        is_done(env, GOODLOCK_MEMORY);
    } else if (!is_done(env, goodlock_open((uint64_t)number, (uint32_t)threads, (uint32_t)ring, session))) {
        free(session);
        session = NULL;
    }
    return number_of(session);
}

JNIEXPORT jlong JNICALL Java_Goodlock_lane(JNIEnv *env, jclass class, jlong session)
{
    goodlock_lane *lane = calloc(1, sizeof *lane);
    uint32_t thread;
    (void)class;
    if (lane == NULL) {
        is_done(env, GOODLOCK_MEMORY);
    } else if (!is_done(env, goodlock_lane_open(handle_of(session), lane, &thread))) {
        free(lane);
        lane = NULL;
    }
    return number_of(lane);
}

typedef uint32_t numbering(goodlock_session *session, const uint8_t *name, size_t length, uint32_t *number);

static jint number_by(numbering *numbered, JNIEnv *env, jlong session, jstring name)
{
    const char *bytes = (*env)->GetStringUTFChars(env, name, NULL);
    uint32_t number = 0;
    if (bytes == NULL)
        return 0; /* it has thrown */
    is_done(env, numbered(handle_of(session), (const uint8_t *)bytes, strlen(bytes), &number));
    (*env)->ReleaseStringUTFChars(env, name, bytes);
    return (jint)number;
}

JNIEXPORT jint JNICALL Java_Goodlock_lock(JNIEnv *env, jclass class, jlong session, jstring name)
{
    (void)class;
    return number_by(goodlock_lock, env, session, name);
}

JNIEXPORT jint JNICALL Java_Goodlock_place(JNIEnv *env, jclass class, jlong session, jstring name)
{
    (void)class;
    return number_by(goodlock_place, env, session, name);
}

JNIEXPORT jboolean JNICALL Java_Goodlock_tryRecord(JNIEnv *env, jclass class, jlong lane, jint kind, jint operand,
                                                   jint place)
{
    uint32_t at, code = goodlock_record(handle_of(lane), (uint32_t)kind, (uint32_t)operand, (uint32_t)place, &at);
    (void)class;
    return code == GOODLOCK_FULL ? JNI_FALSE : is_done(env, code) ? JNI_TRUE : JNI_FALSE;
}

JNIEXPORT jboolean JNICALL Java_Goodlock_tryClose(JNIEnv *env, jclass class, jlong lane)
{
    uint32_t code = goodlock_close(handle_of(lane));
    (void)class;
    return code == GOODLOCK_FULL ? JNI_FALSE : is_done(env, code) ? JNI_TRUE : JNI_FALSE;
}

JNIEXPORT jlong JNICALL Java_Goodlock_pull(JNIEnv *env, jclass class, jlong session, jint most)
{
    goodlock_pulled pulled = {0, 0};
    (void)class;
    is_done(env, goodlock_pull(handle_of(session), (uint32_t)most, &pulled));
    return (jlong)pulled.ended << 32 | pulled.events;
}

JNIEXPORT void JNICALL Java_Goodlock_handIn(JNIEnv *env, jclass class, jlong session, jlong lane)
{
    (void)class;
    if (is_done(env, goodlock_hand_in(handle_of(session), handle_of(lane))))
        free(handle_of(lane));
}

/* The text of the report, with a zero behind it. */
static char *text_of(goodlock_session *session, goodlock_report *report, uint32_t *code)
{
    size_t size;
    uint8_t none;
    char *text = NULL;
    *code = goodlock_text(session, report, &none, 0, &size);
    if (*code == GOODLOCK_OK && (text = calloc(size + 1, 1)) == NULL)
        *code = GOODLOCK_MEMORY;
    if (*code == GOODLOCK_OK)
        *code = goodlock_text(session, report, (uint8_t *)text, size, &size);
    return text;
}

/* The report of the session, which is settled where it isn't yet. */
static uint32_t settled_report(goodlock_session *session, goodlock_report *report)
{
    uint32_t missing, code = goodlock_settled_report(session, GOODLOCK_FULL_MODE, 4, 1000, report);
    if (code != GOODLOCK_MISUSE)
        return code;
    code = goodlock_settle(session, &missing);
    return code == GOODLOCK_OK ? goodlock_settled_report(session, GOODLOCK_FULL_MODE, 4, 1000, report) : code;
}

JNIEXPORT jstring JNICALL Java_Goodlock_settle(JNIEnv *env, jclass class, jlong handle)
{
    goodlock_session *session = handle_of(handle);
    goodlock_report report = {0};
    uint32_t code = settled_report(session, &report);
    char *text = NULL;
    jstring string = NULL;
    (void)class;
    if (code == GOODLOCK_OK)
        text = text_of(session, &report, &code);
    if (is_done(env, code))
        string = (*env)->NewStringUTF(env, text);
    goodlock_report_free(&report);
    if (string != NULL) {
        goodlock_session_free(session);
        free(session);
    }
    free(text);
    return string;
}
