/** Every way out of a try: by its end, by return, by break and continue, and by exceptions. */
public class Finally {
    private static final StringBuffer log = new StringBuffer();

    private static void note(String text) {
        log.append(text).append(';');
    }

    private static int byReturn(int n) {
        try {
            note("try " + n);
            return n * 2;
        } finally {
            note("finally " + n);
        }
    }

    private static int overridden(int n) {
        try {
            throw new IllegalStateException("lost " + n);
        } finally {
            return n + 1;
        }
    }

    private static int loops() {
        int sum = 0;
        for (int i = 0; i < 6; i++) {
            try {
                if (i == 1) {
                    continue;
                }
                if (i == 4) {
                    break;
                }
                sum += i;
            } finally {
                sum += 100;
            }
        }
        return sum;
    }

    private static void nested(int depth) {
        try {
            try {
                if (depth == 0) {
                    throw new RuntimeException("inner");
                }
                nested(depth - 1);
            } catch (IllegalArgumentException e) {
                note("never");
            } finally {
                note("inner finally " + depth);
            }
        } finally {
            note("outer finally " + depth);
        }
    }

    public static void main(String[] arguments) {
        System.out.println(byReturn(4));
        System.out.println(overridden(7));
        System.out.println(loops());
        try {
            nested(2);
        } catch (RuntimeException e) {
            note("caught " + e.getMessage());
        }
        System.out.println(log.toString());
    }
}
