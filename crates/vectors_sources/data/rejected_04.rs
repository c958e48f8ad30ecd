fn a() {}
/* open /* closed */
