package serialcheck.agent;

import java.lang.instrument.ClassFileTransformer;
import java.security.ProtectionDomain;
import java.util.Arrays;
import java.util.HashSet;
import java.util.Set;
import org.objectweb.asm.ClassReader;
import org.objectweb.asm.ClassVisitor;
import org.objectweb.asm.ClassWriter;
import org.objectweb.asm.Handle;
import org.objectweb.asm.MethodVisitor;
import org.objectweb.asm.Opcodes;

/**
 * Rewrites ObjectInputStream: its input is wrapped, and a gate stands before each instruction that may act on what was read: each
 * call that is not known to be harmless, each array, each return of a method that others call. So it holds for code of a JDK that
 * nobody has seen, too. Beside that names are asked where they are resolved, and the lengths of arrays where they are made.
 */
final class Rewriter implements ClassFileTransformer {
    private static final String READER = "java/io/ObjectInputStream", BIN = READER + "$BlockDataInputStream", HOOK = "java/io/SerialcheckHook";
    /** The newest class files that ASM 9.4 knows, those of Java 20. Later ones have nothing in this class that it does not know. */
    private static final int NEWEST = 64;
    /** Classes, or methods, that act on nothing that was read, but keep it or ask what a class that was admitted is like. */
    private static final Set<String> HARMLESS = new HashSet<>(Arrays.asList(BIN, READER + "$HandleTable", "java/io/SerialCallbackContext", "jdk/internal/event/DeserializationEvent",
        READER + "$ValidationList.clear", "java/io/ObjectStreamClass.<init>", "java/io/ObjectStreamClass.readNonProxy", "java/io/ObjectStreamClass.forClass", "java/io/ObjectStreamClass.getResolveException",
        "java/io/ObjectStreamClass.isRecord", "java/io/ObjectStreamClass.isExternalizable", "java/io/ObjectStreamClass.isEnum", "java/io/ObjectStreamClass.isInstantiable",
        "java/io/ObjectStreamClass.hasReadResolveMethod", "java/io/ObjectStreamClass.hasReadObjectMethod", "java/io/ObjectStreamClass.hasReadObjectNoDataMethod",
        "java/io/ObjectStreamClass.hasWriteObjectData", "java/io/ObjectStreamClass.hasBlockExternalData", "java/io/ObjectStreamClass.checkInitialized", "java/io/ObjectStreamClass.checkDeserialize",
        "java/io/ObjectStreamClass.getClassDataLayout", "java/lang/Object.getClass", "java/lang/Class.cast", "java/lang/Class.isArray", "java/lang/Class.isPrimitive",
        "java/lang/Class.getComponentType", "java/lang/StringBuilder", "java/lang/Byte", "java/lang/InternalError"));
    /** Methods of the class itself that no subclass replaces: they are rewritten too. */
    private static final Set<String> PRIVATE = new HashSet<>(Arrays.asList("readObject0", "checkResolve", "readNull", "readHandle", "readClass", "readClassDesc", "readProxyDesc", "readNonProxyDesc",
        "readString", "readArray", "readEnum", "readOrdinaryObject", "readExternalData", "readRecord", "readSerialData", "skipCustomData", "readFatalException", "handleReset", "clear", "freeze",
        "filterCheck", "readTypeString", "latestUserDefinedLoader"));

    /** What was found, to know whether the class is as it should be. */
    int wraps;
    int resolves;
    int arrays;
    int gates;
    Throwable fault;

    @Override
    public byte[] transform(ClassLoader loader, String name, Class<?> c, ProtectionDomain domain, byte[] bytes) {
        if (loader != null || !READER.equals(name)) {
            return null;
        }
        try {
            return rewritten(bytes);
        } catch (RuntimeException | LinkageError unknown) { // the JVM would not tell
            fault = unknown;
            return null;
        }
    }

    @Override
    public String toString() {
        return wraps + " constructors, " + resolves + " places where classes are resolved, " + arrays + " where arrays are made, " + gates + " gates" + (fault == null ? "" : ", " + fault);
    }

    private byte[] rewritten(byte[] bytes) {
        byte high = bytes[6], low = bytes[7];
        byte[] older = bytes.clone();
        if ((high << 8 | low & 0xff) > NEWEST) {
            older[6] = 0;
            older[7] = NEWEST;
        }
        ClassReader reader = new ClassReader(older);
        ClassWriter writer = new ClassWriter(reader, ClassWriter.COMPUTE_MAXS);
        reader.accept(new Methods(writer), 0);
        byte[] made = writer.toByteArray();
        made[6] = high;
        made[7] = low;
        return made;
    }

    private final class Methods extends ClassVisitor {
        Methods(ClassVisitor next) {
            super(Opcodes.ASM9, next);
        }

        @Override
        public MethodVisitor visitMethod(int access, String name, String type, String signature, String[] faults) {
            MethodVisitor to = super.visitMethod(access, name, type, signature, faults);
            if (name.equals("<init>")) {
                return type.equals("(Ljava/io/InputStream;)V") ? new Constructor(to) : to;
            }
            boolean isCalled = (access & (Opcodes.ACC_PUBLIC | Opcodes.ACC_PROTECTED)) != 0;
            boolean reads = name.startsWith("read") || name.startsWith("skip") || name.startsWith("default");
            if ((access & (Opcodes.ACC_STATIC | Opcodes.ACC_ABSTRACT)) != 0 || isCalled && !reads) {
                return to;
            }
            // readObject(Class) and readString() are private, and what they return goes out of the class (SharedSecrets).
            boolean returns = isCalled || name.equals("readObject") || name.equals("readString") && type.startsWith("()");
            return new Gates(to, name, type, returns);
        }
    }

    private final class Constructor extends MethodVisitor {
        private boolean isWrapped;

        Constructor(MethodVisitor to) {
            super(Opcodes.ASM9, to);
        }

        @Override
        public void visitMethodInsn(int op, String owner, String name, String type, boolean isInterface) {
            super.visitMethodInsn(op, owner, name, type, isInterface);
            if (!isWrapped && op == Opcodes.INVOKESPECIAL && owner.equals("java/io/InputStream") && name.equals("<init>")) {
                super.visitVarInsn(Opcodes.ALOAD, 0);
                super.visitVarInsn(Opcodes.ALOAD, 1);
                super.visitMethodInsn(Opcodes.INVOKESTATIC, HOOK, "wrap", "(L" + READER + ";Ljava/io/InputStream;)Ljava/io/InputStream;", false);
                super.visitVarInsn(Opcodes.ASTORE, 1);
                isWrapped = true;
                wraps++;
            }
        }
    }

    private final class Gates extends MethodVisitor {
        private final boolean isObject;
        private final boolean isCalled;
        private final boolean isDescriptor;
        private boolean readsLength;

        Gates(MethodVisitor to, String name, String type, boolean isCalled) {
            super(Opcodes.ASM9, to);
            isObject = name.equals("readUnshared") || name.equals("readObject") && !type.startsWith("()");
            isDescriptor = name.equals("readClassDescriptor");
            readsLength = name.equals("readArray");
            this.isCalled = isCalled;
        }

        private void gate() {
            gates++;
            visitBin();
            super.visitMethodInsn(Opcodes.INVOKESTATIC, HOOK, "gate", "(Ljava/lang/Object;)V", false);
        }

        private void visitBin() {
            super.visitVarInsn(Opcodes.ALOAD, 0);
            super.visitFieldInsn(Opcodes.GETFIELD, READER, "bin", "L" + BIN + ";");
        }

        @Override
        public void visitMethodInsn(int op, String owner, String name, String type, boolean isInterface) {
            boolean isOwn = owner.equals(READER) && PRIVATE.contains(name); // it has gates of its own
            boolean resolves = owner.equals(READER) && (name.equals("resolveClass") || name.equals("resolveProxyClass"));
            if (!isOwn && !HARMLESS.contains(owner) && !HARMLESS.contains(owner + "." + name)) {
                gate();
            }
            if (resolves) {
                Rewriter.this.resolves++;
                super.visitInsn(Opcodes.DUP2);
                super.visitMethodInsn(Opcodes.INVOKESTATIC, HOOK, "resolve", "(L" + READER + ";" + type.substring(1, type.indexOf(')') + 1) + "V", false);
            }
            super.visitMethodInsn(op, owner, name, type, isInterface);
            if (resolves) {
                super.visitVarInsn(Opcodes.ALOAD, 0);
                super.visitInsn(Opcodes.SWAP);
                super.visitMethodInsn(Opcodes.INVOKESTATIC, HOOK, "resolved", "(L" + READER + ";Ljava/lang/Class;)Ljava/lang/Class;", false);
            } else if (readsLength && owner.equals(BIN) && name.equals("readInt")) {
                readsLength = false;
                arrays++;
                super.visitVarInsn(Opcodes.ALOAD, 0);
                super.visitMethodInsn(Opcodes.INVOKESTATIC, HOOK, "array", "(IL" + READER + ";)I", false);
            }
        }

        @Override
        public void visitInvokeDynamicInsn(String name, String type, Handle by, Object... more) {
            gate();
            super.visitInvokeDynamicInsn(name, type, by, more);
        }

        @Override
        public void visitTypeInsn(int op, String type) {
            if (op == Opcodes.ANEWARRAY) {
                gate();
            }
            super.visitTypeInsn(op, type);
        }

        @Override
        public void visitIntInsn(int op, int operand) {
            if (op == Opcodes.NEWARRAY) {
                gate();
            }
            super.visitIntInsn(op, operand);
        }

        @Override
        public void visitMultiANewArrayInsn(String type, int dimensions) {
            gate();
            super.visitMultiANewArrayInsn(type, dimensions);
        }

        @Override
        public void visitInsn(int op) {
            if (isObject && op == Opcodes.ARETURN) {
                gates++;
                visitBin();
                super.visitVarInsn(Opcodes.ALOAD, 0);
                super.visitFieldInsn(Opcodes.GETFIELD, READER, "depth", "J");
                super.visitMethodInsn(Opcodes.INVOKESTATIC, HOOK, "done", "(Ljava/lang/Object;J)V", false);
            } else if (isCalled && op >= Opcodes.IRETURN && op <= Opcodes.RETURN) {
                gate();
            }
            if (isDescriptor && op == Opcodes.ARETURN) { // a subclass may look for the class itself
                super.visitInsn(Opcodes.DUP);
                super.visitVarInsn(Opcodes.ALOAD, 0);
                super.visitInsn(Opcodes.SWAP);
                super.visitMethodInsn(Opcodes.INVOKESTATIC, HOOK, "resolve", "(L" + READER + ";Ljava/io/ObjectStreamClass;)V", false);
            }
            super.visitInsn(op);
        }
    }
}
