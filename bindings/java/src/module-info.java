/** Checks Java object serialization streams before any {@link java.io.ObjectInputStream} exists, by native code for Linux on x86-64 and aarch64 and for Windows on x86-64. */
module serialcheck {
    requires static java.management;

    exports serialcheck;
}
