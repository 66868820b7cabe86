/** Synchronized methods and blocks, entered again and left by exceptions. */
public class Monitors {
    private int depth;

    private synchronized int nested(int n) {
        depth++;
        try {
            return n == 0 ? depth : nested(n - 1);
        } finally {
            depth--;
        }
    }

    private static synchronized void fails() {
        throw new UnsupportedOperationException("static");
    }

    private int block(Object lock, int n) {
        synchronized (lock) {
            synchronized (this) {
                if (n < 0) {
                    throw new IllegalArgumentException("negative " + n);
                }
                return n + depth;
            }
        }
    }

    public static void main(String[] arguments) {
        Monitors monitors = new Monitors();
        System.out.println(monitors.nested(5));
        System.out.println(monitors.depth);
        System.out.println(monitors.block("lock", 3));
        try {
            monitors.block(monitors, -1);
        } catch (IllegalArgumentException e) {
            System.out.println(e);
        }
        try {
            monitors.block(null, 1);
        } catch (NullPointerException e) {
            System.out.println("no lock");
        }
        try {
            fails();
        } catch (UnsupportedOperationException e) {
            System.out.println(e.getMessage());
        }
    }
}
