package bank;

/** An account that takes deposits, each of which must be positive. */
public class Account {
    private final String owner;
    private int balance;

    public Account(String owner) {
        this.owner = owner;
    }

    /** The next amount, from outside. */
    static native int ask();

    public synchronized void deposit(int amount) {
        if (amount <= 0) {
            throw new IllegalArgumentException("amount " + amount);
        }
        balance += amount;
    }

    public int balance() {
        return balance;
    }

    /** The name of this class. */
    static String kind() {
        return Account.class.getName();
    }

    public static void main(String[] arguments) {
        Account account = new Account("x");
        try {
            account.deposit(5);
            account.deposit(ask());
        } catch (IllegalArgumentException e) {
            System.out.println(e.getMessage());
        } finally {
            System.out.println("balance " + account.balance());
        }
    }
}
