/** The order in which classes are initialised, and what an initialiser that fails does. */
public class Order {
    static class Top {
        static int first = say("Top");
        int own = say("top object");
    }

    static class Middle extends Top {
        static final int CONSTANT = 42;
        static final int COMPUTED = say("Middle");
        int own = say("middle object");

        static void touch() {
            say("touch");
        }
    }

    static class Bottom extends Middle {
        static {
            say("Bottom");
        }

        Bottom() {
            say("bottom object");
        }
    }

    interface Held {
        int VALUE = say("Held");
    }

    static class Holder implements Held {
        static int read() {
            return VALUE;
        }
    }

    private static int count;

    static int say(String text) {
        count++;
        System.out.println(count + " " + text);
        return count;
    }

    public static void main(String[] arguments) {
        say("main");
        say("constant " + Middle.CONSTANT);
        Middle.touch();
        new Bottom();
        new Bottom();
        say("held " + Holder.read());
        say("held " + Holder.read());
        Top[] none = new Top[3];
        say("array " + none.length);
    }
}
