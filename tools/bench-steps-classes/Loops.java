/**
 * Loops that never end, each of one kind of work, to be run for a number of steps: alone, under a
 * recursion, and beside objects that were made before.
 */
public class Loops {
    /** A class that overrides, so that a call on an object is selected by its class. */
    static class Below extends Loops {
        int after(int n) {
            return n + 1;
        }
    }

    private static int shared;

    private int own;
    private Loops next;

    int after(int n) {
        return n - 1;
    }

    private static int twice(int n) {
        return n + n;
    }

    private static void arithmetic() {
        int a = 1;
        long b = 1L;
        for (int i = 0; true; i++) {
            a = a * 31 + i ^ a >>> 7;
            b = b + a - (b << 3);
        }
    }

    private static void calls() {
        Loops object = new Below();
        int a = 0;
        while (true) {
            a = object.after(twice(a));
        }
    }

    private static void fields() {
        Loops object = new Below();
        while (true) {
            object.own = object.own + shared;
            shared = object.own + 1;
        }
    }

    private static void loop(int kind) {
        switch (kind) {
            case 0:
                arithmetic();
            case 1:
                calls();
            default:
                fields();
        }
    }

    private static void under(int depth, int kind) {
        if (depth > 0) {
            under(depth - 1, kind);
        } else {
            loop(kind);
        }
    }

    /** The objects, each of which refers to the one before, and all of which stay. */
    private static Loops made(int objects) {
        Loops last = null;
        for (int i = 0; i < objects; i++) {
            Loops object = new Loops();
            object.next = last;
            last = object;
        }
        return last;
    }

    public static int run(int kind, int depth, int objects) {
        Loops last = made(objects);
        under(depth, kind);
        return last.own;
    }
}
