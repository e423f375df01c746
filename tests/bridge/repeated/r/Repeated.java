package r;

@Rep(1)
@Rep(2)
class Repeated {
  @Rep(3)
  int once;
}
