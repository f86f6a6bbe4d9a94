// SPDX-License-Identifier: Apache-2.0
// Counts the distinct integers from 0 to N, and of the sketches in files, through JNI (Java 8 and later; counter.c beside it):
//
//     cc -shared -fPIC -I$JAVA_HOME/include -I$JAVA_HOME/include/linux -o libcounter.so counter.c $(pkg-config --cflags --libs hll)
//     javac -d . Counter.java
//     java -Dcounter=$PWD/libcounter.so Counter 100000 monday.hll
import java.nio.file.Files;
import java.nio.file.Paths;

public final class Counter {
    static {
        System.load(System.getProperty("counter"));
    }

    /** The values that one call passes to C, as a call takes longer than adding ten. */
    private static final int BATCH = 256;

    private final byte[] registers;
    private final byte[] values = new byte[8 * BATCH];
    private int waiting;

    Counter(int lgK) {
        registers = new byte[1 << lgK];
    }

    private static native int add(byte[] registers, byte[] values, int count);

    private static native int merge(byte[] registers, byte[] image);

    /** Writes the estimate, its relative standard error, and three lower and three upper bounds. */
    private static native int estimate(byte[] registers, double[] found);

    /** Adds an integer by its eight bytes, the lowest first. */
    void add(long value) {
        if (waiting == BATCH)
            flush();
        for (int i = 0; i < 8; i++)
            values[8 * waiting + i] = (byte) (value >>> 8 * i);
        waiting++;
    }

    private void flush() {
        check(add(registers, values, waiting), "values");
        waiting = 0;
    }

    /** Merges an image. Its lg_k is at least that of the counter. */
    void merge(byte[] image, String name) {
        check(merge(registers, image), name);
    }

    double[] estimate() {
        flush();
        double[] found = new double[8];
        check(estimate(registers, found), "registers");
        return found;
    }

    private static void check(int status, String what) {
        if (status != 0)
            throw new IllegalArgumentException(what + ": status " + status + " of hll.h");
    }

    public static void main(String[] words) throws java.io.IOException {
        Counter counter = new Counter(12);
        for (long i = 0; i < Long.parseLong(words[0]); i++)
            counter.add(i);
        for (int i = 1; i < words.length; i++)
            counter.merge(Files.readAllBytes(Paths.get(words[i])), words[i]);
        double[] found = counter.estimate();
        System.out.printf("%.0f, between %.0f and %.0f%n", found[0], found[3], found[6]);
    }
}
