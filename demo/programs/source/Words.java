/** Strings: their units, parts and hashes, and a list of words that is sorted by hand. */
public class Words {
    private static int compare(String a, String b) {
        int length = a.length() < b.length() ? a.length() : b.length();
        for (int i = 0; i < length; i++) {
            int difference = a.charAt(i) - b.charAt(i);
            if (difference != 0) {
                return difference;
            }
        }
        return a.length() - b.length();
    }

    private static String[] split(String text) {
        int count = 1;
        for (int i = 0; i < text.length(); i++) {
            if (text.charAt(i) == ' ') {
                count++;
            }
        }
        String[] words = new String[count];
        int start = 0;
        int word = 0;
        for (int i = 0; i <= text.length(); i++) {
            if (i == text.length() || text.charAt(i) == ' ') {
                words[word++] = text.substring(start, i);
                start = i + 1;
            }
        }
        return words;
    }

    private static void sort(String[] words) {
        for (int i = 1; i < words.length; i++) {
            String word = words[i];
            int j = i - 1;
            while (j >= 0 && compare(words[j], word) > 0) {
                words[j + 1] = words[j];
                j--;
            }
            words[j + 1] = word;
        }
    }

    private static String reversed(String text) {
        StringBuffer buffer = new StringBuffer();
        for (int i = text.length() - 1; i >= 0; i--) {
            buffer.append(text.charAt(i));
        }
        return buffer.toString();
    }

    public static void main(String[] arguments) {
        String[] words = split("the quick brown fox jumps over the lazy dog");
        sort(words);
        StringBuffer line = new StringBuffer("sorted:");
        for (int i = 0; i < words.length; i++) {
            line.append(' ').append(words[i]);
        }
        System.out.println(line);
        System.out.println(reversed("st\u00f6\u20ac\uD83D"));
        System.out.println("hash".hashCode() + " " + "".hashCode() + " " + "a longer text overflows".hashCode());
        System.out.println("one".concat("two").equals("onetwo"));
        System.out.println("one" == "one");
        System.out.println("one".concat("").equals("one"));
        System.out.println(String.valueOf(true) + String.valueOf('c') + String.valueOf(12L) + String.valueOf((Object) null));
        try {
            "short".substring(3, 9);
        } catch (StringIndexOutOfBoundsException e) {
            System.out.println("past the end");
        }
        try {
            "short".charAt(-1);
        } catch (IndexOutOfBoundsException e) {
            System.out.println("before the start");
        }
    }
}
