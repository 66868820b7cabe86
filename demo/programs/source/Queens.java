/** Places eight queens on a board so that no two attack each other, and counts the ways. */
public class Queens {
    private final int size;
    private final int[] columns;
    private final boolean[] taken;
    private int ways;

    Queens(int size) {
        this.size = size;
        this.columns = new int[size];
        this.taken = new boolean[size];
    }

    private boolean isSafe(int row, int column) {
        if (taken[column]) {
            return false;
        }
        for (int above = 0; above < row; above++) {
            int distance = row - above;
            if (columns[above] == column - distance || columns[above] == column + distance) {
                return false;
            }
        }
        return true;
    }

    private void place(int row) {
        if (row == size) {
            ways++;
            if (ways == 1) {
                show();
            }
            return;
        }
        for (int column = 0; column < size; column++) {
            if (isSafe(row, column)) {
                columns[row] = column;
                taken[column] = true;
                place(row + 1);
                taken[column] = false;
            }
        }
    }

    private void show() {
        for (int row = 0; row < size; row++) {
            StringBuffer line = new StringBuffer();
            for (int column = 0; column < size; column++) {
                line.append(columns[row] == column ? 'Q' : '.');
            }
            System.out.println(line.toString());
        }
    }

    public static void main(String[] arguments) {
        Queens queens = new Queens(6);
        queens.place(0);
        System.out.println("ways " + queens.ways);
    }
}
