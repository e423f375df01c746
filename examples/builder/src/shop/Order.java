package shop;

class Order {
  @Builder(prefix = "with")
  static final class Line<T extends Comparable<T>> {
    T key;
    Item[] items;

    Line(T key, Item... items) {
      this.key = key;
      this.items = items;
    }
  }
}
