// SPDX-License-Identifier: Apache-2.0
// Merges sketches from files, and estimates the number of distinct values in all of them, by java.lang.foreign (Java 22 and later):
//
//     java --enable-native-access=ALL-UNNAMED -Dhll=/usr/lib/x86_64-linux-gnu/libhll.so.0 Distinct.java monday.hll tuesday.hll
import static java.lang.foreign.ValueLayout.ADDRESS;
import static java.lang.foreign.ValueLayout.JAVA_BYTE;
import static java.lang.foreign.ValueLayout.JAVA_LONG;

import java.lang.foreign.Arena;
import java.lang.foreign.FunctionDescriptor;
import java.lang.foreign.Linker;
import java.lang.foreign.MemoryLayout;
import java.lang.foreign.MemorySegment;
import java.lang.foreign.SymbolLookup;
import java.lang.invoke.MethodHandle;
import java.nio.file.Files;
import java.nio.file.Path;

public class Distinct {
    private static final int LG_K = 12;
    private static final Linker LINKER = Linker.nativeLinker();
    private static final SymbolLookup LIBRARY =
        SymbolLookup.libraryLookup(Path.of(System.getProperty("hll", "/usr/local/lib/libhll.so.0")), Arena.global());

    // (with `critical`, C works on Java's arrays where they are)
    private static final MethodHandle MERGE =
        call("hll_registers_merge", ADDRESS, JAVA_LONG, ADDRESS, JAVA_LONG, ADDRESS);
    private static final MethodHandle ESTIMATE = call("hll_registers_estimate", ADDRESS, JAVA_LONG, ADDRESS);

    private static MethodHandle call(String name, MemoryLayout... arguments) {
        return LINKER.downcallHandle(LIBRARY.find(name).orElseThrow(), FunctionDescriptor.of(JAVA_BYTE, arguments),
            Linker.Option.critical(true));
    }

    public static void main(String[] files) throws Throwable {
        byte[] registers = new byte[1 << LG_K];
        for (String file : files) {
            byte[] image = Files.readAllBytes(Path.of(file));
            byte status = (byte) MERGE.invokeExact(MemorySegment.ofArray(registers), (long) registers.length,
                MemorySegment.ofArray(image), (long) image.length, MemorySegment.NULL);
            if (status != 0)
                throw new IllegalArgumentException(file + ": not the image of a sketch of lg_k " + LG_K + " or more, status " + status);
        }
        // a hll_estimation: the estimate, its relative standard error, and three lower and three upper bounds
        double[] found = new double[8];
        byte status = (byte) ESTIMATE.invokeExact(MemorySegment.ofArray(registers), (long) registers.length,
            MemorySegment.ofArray(found));
        if (status != 0)
            throw new IllegalStateException("status " + status);
        System.out.printf("%.0f, between %.0f and %.0f%n", found[0], found[3], found[6]);
    }
}
