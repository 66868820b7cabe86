/** Inner, local and anonymous classes, with what they take from around them. */
public class Inner {
    interface Visitor {
        void visit(int value);
    }

    private int sum;
    private Node first;

    private class Node {
        private final int value;
        private final Node next;

        Node(int value, Node next) {
            this.value = value;
            this.next = next;
            sum += value;
        }
    }

    private void put(int value) {
        first = new Node(value, first);
    }

    private void each(Visitor visitor) {
        for (Node node = first; node != null; node = node.next) {
            visitor.visit(node.value);
        }
    }

    private interface Task {
        void run();
    }

    private static Task printer(final String text, final int times) {
        class Printer implements Task {
            private int left = times;

            public void run() {
                while (left-- > 0) {
                    System.out.println(text + " " + left);
                }
            }
        }
        return new Printer();
    }

    public static void main(String[] arguments) {
        final Inner inner = new Inner();
        for (int i = 1; i <= 5; i++) {
            inner.put(i * i);
        }
        final int[] greatest = { 0 };
        inner.each(new Visitor() {
            private int count;

            public void visit(int value) {
                count++;
                if (value > greatest[0]) {
                    greatest[0] = value;
                }
                System.out.println(count + ": " + value + " of " + inner.sum);
            }
        });
        System.out.println(greatest[0]);
        printer("line", 3).run();
        System.out.println(new Inner().new Node(3, null).value);
    }
}
