/** Of p.
 * @deprecated p */
package p;
