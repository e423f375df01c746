package shop; @q.A class Cart {}
