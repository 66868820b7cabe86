/** Exceptions with causes, their texts, and handlers in callers. */
public class Causes {
    static class Failure extends RuntimeException {
        private final int code;

        Failure(int code, Throwable cause) {
            super("code " + code, cause);
            this.code = code;
        }

        public String getMessage() {
            return super.getMessage() + "!";
        }
    }

    private static int divide(int a, int b) {
        return a / b;
    }

    private static void deep(int depth, int kind) {
        if (depth > 0) {
            deep(depth - 1, kind);
            return;
        }
        switch (kind) {
            case 0:
                divide(1, 0);
                break;
            case 1:
                ((Object) null).toString();
                break;
            case 2:
                throw new Failure(2, new IllegalStateException("below"));
            case 3:
                Object text = "text";
                ((Integer) text).intValue();
                break;
            default:
                throw new Error();
        }
    }

    private static String tell(Throwable thrown) {
        return thrown.getClass().getName();
    }

    public static void main(String[] arguments) {
        for (int kind = 0; kind < 5; kind++) {
            try {
                deep(kind, kind);
                System.out.println("nothing");
            } catch (Failure failure) {
                System.out.println(failure + " by " + failure.getCause().toString() + " " + failure.code);
            } catch (NullPointerException e) {
                System.out.println("null");
            } catch (RuntimeException e) {
                System.out.println(tell(e));
            } catch (Throwable e) {
                System.out.println(e + " " + (e.getCause() == null));
            }
        }
        System.out.println(new IllegalArgumentException((String) null));
        System.out.println(new Integer(7).equals(new Integer(7)) + " " + new Long(7L).equals(new Integer(7)));
        System.out.println(new Long(-1L).hashCode() + " " + new Boolean(true).hashCode() + " " + new Character('c'));
        throw new Failure(9, null);
    }
}
