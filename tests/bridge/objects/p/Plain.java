package p;

import o.Mark;

@Mark
class Plain {}
