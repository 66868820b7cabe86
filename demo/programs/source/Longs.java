/** Arithmetic of longs and ints, with their ends. */
public class Longs {
    private static long power(long base, int exponent) {
        long result = 1L;
        for (int i = 0; i < exponent; i++) {
            result *= base;
        }
        return result;
    }

    private static long greatestDivisor(long a, long b) {
        return b == 0L ? a : greatestDivisor(b, a % b);
    }

    private static int bits(long n) {
        int bits = 0;
        while (n != 0L) {
            bits += (int) (n & 1L);
            n >>>= 1;
        }
        return bits;
    }

    private static int compare(long a, long b) {
        return a < b ? -1 : a > b ? 1 : 0;
    }

    public static void main(String[] arguments) {
        System.out.println(power(3L, 39));
        System.out.println(power(3L, 41));
        System.out.println(greatestDivisor(1071L * 1000000007L, 462L * 1000000007L));
        System.out.println(Long.MIN_VALUE);
        System.out.println(Long.MIN_VALUE / -1L);
        System.out.println(Long.MIN_VALUE % -1L);
        System.out.println(Integer.MIN_VALUE / -1);
        System.out.println(-7 / 2);
        System.out.println(-7 % 2);
        System.out.println(-7L >> 1);
        System.out.println(-7L >>> 60);
        System.out.println(1 << 33);
        System.out.println(1L << 33);
        System.out.println(-1 >>> 28);
        System.out.println(bits(-1L) + " " + bits(255L << 20));
        System.out.println(compare(-1L, 1L) + " " + compare(5L, 5L) + " " + compare(Long.MAX_VALUE, Long.MIN_VALUE));
        System.out.println((int) 4294967297L);
        System.out.println((byte) 200);
        System.out.println((short) 40000);
        System.out.println((int) (char) -1);
        System.out.println((long) Integer.MAX_VALUE + 1L);
        System.out.println(~5L ^ 3L | 8L);
        try {
            System.out.println(1L / (power(2L, 64)));
        } catch (ArithmeticException e) {
            System.out.println("division by zero");
        }
    }
}
