package o;

public @interface Tags {
    Tag[] value();
}
