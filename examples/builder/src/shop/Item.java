package shop;

import java.util.List;

@Builder
public class Item {
  static final int MAX = 10;

  private final String name;
  private final int price;
  private final List<String> parts;

  Item(String name, int price, List<String> parts) {
    this.name = name;
    this.price = price;
    this.parts = parts;
  }

  @Override
  public String toString() {
    return name + " for " + price + " of " + parts;
  }
}
