import java.io.ByteArrayOutputStream;
import java.io.DataOutputStream;
import java.io.FileOutputStream;
import java.io.IOException;
import java.io.ObjectOutputStream;
import java.io.Serializable;
import java.lang.reflect.Array;
import java.lang.reflect.Field;
import java.util.Random;

/**
 * Writes primitive values at their edges to the file that is named, and prints for each the line that `show --values` has of it. Its
 * floats are such that a Java before 19, which prints some with a digit more, prints them too with the fewest digits.
 */
public class Values {
    static class Held implements Serializable {
        private static final long serialVersionUID = 1;
        boolean no = false, yes = true;
        byte leastByte = Byte.MIN_VALUE, lastByte = -1, noByte = 0, greatestByte = Byte.MAX_VALUE;
        short leastShort = Short.MIN_VALUE, lastShort = -1, greatestShort = Short.MAX_VALUE;
        int leastInt = Integer.MIN_VALUE, lastInt = -1, greatestInt = Integer.MAX_VALUE, seventeen = 17;
        long leastLong = Long.MIN_VALUE, lastLong = -1, greatestLong = Long.MAX_VALUE, aboveInt = 4294967296L;
        char noChar = 0, letter = 'A', quote = '"', stroke = '\\', euro = '\u20ac', half = '\ud800', last = '\uffff';
        float aFloat = 1.5f, leastFloat = Float.MIN_VALUE, greatestFloat = Float.MAX_VALUE, noFloat = Float.intBitsToFloat(0xffc00001);
        double aDouble = -0.0, leastDouble = Double.MIN_VALUE, normalDouble = Double.MIN_NORMAL, greatestDouble = Double.MAX_VALUE;
        byte[] bytes = {Byte.MIN_VALUE, 0, Byte.MAX_VALUE};
        short[] shorts = {Short.MIN_VALUE, 0, Short.MAX_VALUE};
        int[] ints = {Integer.MIN_VALUE, 0, Integer.MAX_VALUE};
        long[] longs = {Long.MIN_VALUE, 0, Long.MAX_VALUE};
        char[] chars = {'a', '\n'};
        boolean[] booleans = {true, false};
        float[] floats = {0f, -0f, Float.NEGATIVE_INFINITY, 1e7f, 9999999f, 1e-3f, 9.999999e-4f, 0.1f, 33554432f, 16777216f, 1e10f};
        double[] doubles = {1e7, 9999999.999999998, 1e-3, 9.999999999999998e-4, 0.1, 1 / 3d, 100, 123456.75, 9007199254740993d, 2.2250738585072011e-308,
                Double.POSITIVE_INFINITY, Double.longBitsToDouble(0xfff8000000000001L)};
        double[] random = new Random(1).doubles(200).map(it -> Double.longBitsToDouble((long) (it * Long.MAX_VALUE * 2))).toArray();
    }

    public static void main(String[] args) throws Exception {
        Held held = new Held();
        try (ObjectOutputStream out = new ObjectOutputStream(new FileOutputStream(args[0]))) {
            out.writeObject(held);
        }
        for (Field field : Held.class.getDeclaredFields()) {
            if (field.getType().isPrimitive() && !field.getName().equals("serialVersionUID")) {
                System.out.println("\"" + field.getName() + "\" = " + told(field.get(held)));
            } else if (field.getType().isArray()) {
                Object array = field.get(held);
                for (int i = 0; i < Array.getLength(array); i++) {
                    System.out.println("[" + i + "] " + told(Array.get(array, i)));
                }
            }
        }
    }

    /** The bytes of a value in hexadecimal, and what it means. */
    static String told(Object value) throws IOException {
        ByteArrayOutputStream bytes = new ByteArrayOutputStream();
        DataOutputStream out = new DataOutputStream(bytes);
        String meaning = " (" + value + ")";
        if (value instanceof Boolean) {
            out.writeBoolean((Boolean) value);
        } else if (value instanceof Byte) {
            out.writeByte((Byte) value);
        } else if (value instanceof Short) {
            out.writeShort((Short) value);
        } else if (value instanceof Integer) {
            out.writeInt((Integer) value);
        } else if (value instanceof Long) {
            out.writeLong((Long) value);
        } else if (value instanceof Character) {
            out.writeChar((Character) value);
            meaning = " (\"" + quoted((Character) value) + "\")";
        } else if (value instanceof Float) {
            out.writeFloat((Float) value);
        } else {
            out.writeDouble((Double) value);
        }
        StringBuilder digits = new StringBuilder();
        for (byte b : bytes.toByteArray()) {
            digits.append(String.format("%02x", b));
        }
        return digits + meaning;
    }

    /** A unit in a quoted text. */
    static String quoted(char unit) {
        if (unit == '"' || unit == '\\') {
            return "\\" + unit;
        }
        return ' ' <= unit && unit <= '~' ? "" + unit : String.format("\\u%04x", (int) unit);
    }
}
