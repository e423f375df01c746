package shop; @q.A class Item {}
