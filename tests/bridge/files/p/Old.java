package p;

@Deprecated
class Old {
    @Deprecated int field;
    void method(@Deprecated int parameter) {}
}
