aspect T {
  before(): call(void C.m()) {
    System.out.println("a");
  }
}
