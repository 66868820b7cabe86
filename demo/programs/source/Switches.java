/** Switches with dense and with scattered keys, nested and falling through. */
public class Switches {
    private static String day(int n) {
        switch (n) {
            case 1:
                return "Monday";
            case 2:
                return "Tuesday";
            case 3:
                return "Wednesday";
            case 4:
                return "Thursday";
            case 5:
                return "Friday";
            case 6:
            case 7:
                return "weekend";
            default:
                return "no day";
        }
    }

    private static int scattered(int key) {
        switch (key) {
            case Integer.MIN_VALUE:
                return 1;
            case -1000:
                return 2;
            case 0:
                return 3;
            case 'x':
                return 4;
            case 1000000:
                return 5;
            case Integer.MAX_VALUE:
                return 6;
        }
        return 0;
    }

    private static int falling(int start) {
        int sum = 0;
        switch (start) {
            case 0:
                sum += 1;
            case 1:
                sum += 10;
            case 2:
                sum += 100;
                break;
            default:
                sum = -1;
            case 4:
                sum += 1000;
        }
        return sum;
    }

    private static String nested(int a, int b) {
        String text = "";
        outer:
        for (int i = 0; i < 3; i++) {
            switch (a) {
                case 0:
                    switch (b) {
                        case 0:
                            text += "00";
                            break outer;
                        case 1:
                            text += "01";
                            continue outer;
                        default:
                            text += "0?";
                    }
                    text += "!";
                    break;
                default:
                    text += "?";
            }
        }
        return text;
    }

    public static void main(String[] arguments) {
        for (int i = 0; i < 9; i++) {
            System.out.println(day(i));
        }
        int[] keys = { Integer.MIN_VALUE, -1000, -999, 0, 'x', 1000000, Integer.MAX_VALUE };
        for (int i = 0; i < keys.length; i++) {
            System.out.println(scattered(keys[i]));
        }
        for (int i = 0; i < 6; i++) {
            System.out.println(falling(i));
        }
        System.out.println(nested(0, 0) + " " + nested(0, 1) + " " + nested(0, 2) + " " + nested(1, 0));
    }
}
