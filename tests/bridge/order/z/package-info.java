@Deprecated package z;
