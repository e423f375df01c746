package d;

/**
 * A line.
 *   Another one, with a * in it.
 *
 */
class Docs {
  /** One line. */ int one;
  /**No blank.*/ int close;
  /*** Three stars, and three at the end. ***/ int stars;
  /**   * A star behind blanks. */ int star;
  /** First.
   ** Second. */ int lines;
  /**

   * Behind an empty line. */ int empty;
  /***/ int nothing;
  /** */ int blank;
  /* None. */ int none;
}
