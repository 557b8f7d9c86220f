/* a
 */ #import a
