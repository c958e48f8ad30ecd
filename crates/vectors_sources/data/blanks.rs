// A line comment, and white space of each kind.
	usecrate::here ‎::‏there ; 
/* a block /* in a block */ comment */fn/**/main(){/***/}////four
//