/* What jni.h wants to know of Windows on x86-64, where no JDK for Windows is at hand. */
#ifndef SERIALCHECK_JNI_MD_H
#define SERIALCHECK_JNI_MD_H
#define JNIEXPORT __declspec(dllexport)
#define JNIIMPORT __declspec(dllimport)
#define JNICALL __stdcall
typedef int jint;
typedef long long jlong;
typedef signed char jbyte;
#endif
