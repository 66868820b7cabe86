/** Reads and computes expressions, by recursive descent, with faults as exceptions. */
public class Calculator {
    static class Fault extends Exception {
        private final int place;

        Fault(String message, int place) {
            super(message);
            this.place = place;
        }

        int place() {
            return place;
        }
    }

    private final String text;
    private int place;

    Calculator(String text) {
        this.text = text;
    }

    private char next() {
        while (place < text.length() && text.charAt(place) == ' ') {
            place++;
        }
        return place < text.length() ? text.charAt(place) : '\0';
    }

    private int sum() throws Fault {
        int value = product();
        while (true) {
            switch (next()) {
                case '+':
                    place++;
                    value += product();
                    break;
                case '-':
                    place++;
                    value -= product();
                    break;
                default:
                    return value;
            }
        }
    }

    private int product() throws Fault {
        int value = factor();
        while (true) {
            switch (next()) {
                case '*':
                    place++;
                    value *= factor();
                    break;
                case '/':
                    int at = place++;
                    int divisor = factor();
                    try {
                        value /= divisor;
                    } catch (ArithmeticException e) {
                        throw new Fault("division by zero", at);
                    }
                    break;
                default:
                    return value;
            }
        }
    }

    private int factor() throws Fault {
        char c = next();
        if (c == '(') {
            place++;
            int value = sum();
            if (next() != ')') {
                throw new Fault("a bracket is missing", place);
            }
            place++;
            return value;
        }
        if (c == '-') {
            place++;
            return -factor();
        }
        if (c < '0' || c > '9') {
            throw new Fault("a number is missing", place);
        }
        int value = 0;
        while (place < text.length() && text.charAt(place) >= '0' && text.charAt(place) <= '9') {
            value = value * 10 + (text.charAt(place++) - '0');
        }
        return value;
    }

    static void compute(String text) {
        Calculator calculator = new Calculator(text);
        try {
            int value = calculator.sum();
            if (calculator.next() != '\0') {
                throw new Fault("the text goes on", calculator.place);
            }
            System.out.println(text + " = " + value);
        } catch (Fault fault) {
            System.out.println(text + ": " + fault.getMessage() + " at " + fault.place());
        } finally {
            System.out.println("read " + calculator.place);
        }
    }

    public static void main(String[] arguments) {
        compute("1 + 2 * 3");
        compute("(1 + 2) * -(3 - 10) / 2");
        compute("7 / (3 - 3)");
        compute("2 * (3 + 4");
        compute("2 3");
        compute("");
    }
}
