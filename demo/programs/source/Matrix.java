/** Arrays of arrays, of every kind of element. */
public class Matrix {
    private static int[][] product(int[][] a, int[][] b) {
        int[][] result = new int[a.length][b[0].length];
        for (int row = 0; row < a.length; row++) {
            for (int column = 0; column < b[0].length; column++) {
                for (int i = 0; i < b.length; i++) {
                    result[row][column] += a[row][i] * b[i][column];
                }
            }
        }
        return result;
    }

    private static void show(int[][] matrix) {
        for (int row = 0; row < matrix.length; row++) {
            StringBuffer line = new StringBuffer();
            for (int column = 0; column < matrix[row].length; column++) {
                line.append(matrix[row][column]).append(' ');
            }
            System.out.println(line);
        }
    }

    public static void main(String[] arguments) {
        int[][] fibonacci = { { 1, 1 }, { 1, 0 } };
        int[][] power = { { 1, 0 }, { 0, 1 } };
        for (int i = 0; i < 30; i++) {
            power = product(power, fibonacci);
        }
        show(power);
        byte[] bytes = new byte[] { 1, (byte) 255, 127 };
        bytes[2]++;
        char[] chars = { 'a', 'b' };
        chars[0] += 2;
        short[] shorts = { 32767 };
        shorts[0]++;
        boolean[] flags = new boolean[2];
        flags[1] = !flags[0];
        long[] longs = { 1L << 40, -1L };
        longs[1] <<= 8;
        System.out.println(bytes[0] + " " + bytes[1] + " " + bytes[2]);
        System.out.println(chars[0] + "" + chars[1]);
        System.out.println(shorts[0] + " " + flags[1] + " " + longs[0] + " " + longs[1]);
        long[][][] deep = new long[2][3][];
        System.out.println(deep.length + " " + deep[1].length + " " + (deep[1][2] == null));
        try {
            int[] negative = new int[bytes[1]];
            System.out.println(negative.length);
        } catch (NegativeArraySizeException e) {
            System.out.println("negative");
        }
        try {
            power[2][0] = 1;
        } catch (ArrayIndexOutOfBoundsException e) {
            System.out.println("no such row");
        }
        try {
            deep[0][0][0] = 1L;
        } catch (NullPointerException e) {
            System.out.println("no row at all");
        }
        System.out.println(new int[0].getClass().getName() + " " + new Matrix[0][0].getClass().getName());
    }
}
