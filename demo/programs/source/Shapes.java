/** Interfaces, abstract classes and selection by the class of the object. */
public class Shapes {
    interface Shape {
        String UNIT = "cm2";

        int area();

        String name();
    }

    interface Scaled extends Shape {
        Scaled times(int factor);
    }

    static abstract class Named implements Shape {
        private final String name;

        Named(String name) {
            this.name = name;
        }

        public String name() {
            return name;
        }

        public String toString() {
            return name() + " of " + area() + " " + UNIT;
        }
    }

    static class Rectangle extends Named implements Scaled {
        private final int width;
        private final int height;

        Rectangle(String name, int width, int height) {
            super(name);
            this.width = width;
            this.height = height;
        }

        Rectangle(int width, int height) {
            this("rectangle", width, height);
        }

        public int area() {
            return width * height;
        }

        public Scaled times(int factor) {
            return new Rectangle(width * factor, height * factor);
        }
    }

    static class Square extends Rectangle {
        Square(int side) {
            super("square", side, side);
        }

        public String name() {
            return "a " + super.name();
        }
    }

    private static int total(Shape[] shapes) {
        int total = 0;
        for (int i = 0; i < shapes.length; i++) {
            total += shapes[i].area();
        }
        return total;
    }

    public static void main(String[] arguments) {
        Shape[] shapes = new Shape[] { new Rectangle(3, 4), new Square(5), new Square(2).times(3) };
        for (int i = 0; i < shapes.length; i++) {
            System.out.println(shapes[i]);
            System.out.println(shapes[i] instanceof Square);
        }
        System.out.println("total " + total(shapes));
        Object[] objects = shapes;
        try {
            objects[0] = "no shape";
        } catch (ArrayStoreException e) {
            System.out.println("refused");
        }
        try {
            Square square = (Square) shapes[0];
            System.out.println(square);
        } catch (ClassCastException e) {
            System.out.println("no square");
        }
    }
}
