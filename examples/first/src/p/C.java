package p; @q.A class C {}
