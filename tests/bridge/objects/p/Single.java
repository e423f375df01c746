package p;

@o.Tag("alone")
class Single {}
