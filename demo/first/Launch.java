/** Runs a static method without parameters: `Launch CLASS METHOD`. */
public class Launch {
    public static void main(String[] words) throws Exception {
        java.lang.reflect.Method method = Class.forName(words[0]).getDeclaredMethod(words[1]);
        method.setAccessible(true);
        method.invoke(null);
    }
}
