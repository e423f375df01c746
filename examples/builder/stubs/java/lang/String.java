package java.lang; public final class String implements Comparable<String> {}
