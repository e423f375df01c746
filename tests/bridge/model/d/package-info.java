/** Doc of d. */ @Deprecated package d;
