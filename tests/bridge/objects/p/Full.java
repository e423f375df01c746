package p;

import java.util.List;
import o.Mark;
import o.Tag;

@Mark(number = 7, small = 8, letter = 97, part = 1, texts = "one", kind = Mark.Kind.TWO, kinds = {},
    type = List.class, types = {int.class, String[].class}, tag = @Tag("own"), tags = {@Tag("a"), @Tag("b")},
    unknown = Missing.NAME)
@Tag("1")
@Tag("2")
class Full {}
