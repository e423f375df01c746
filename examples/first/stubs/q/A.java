package q; public @interface A {}
