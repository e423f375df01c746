@Deprecated package b;
