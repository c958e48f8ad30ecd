//! Of the file.
/*! Also of it. */

/// Of the item, with a space at the end. 
///
///	tab, "quotes", \n and 'é'
/** A block
 * of lines. */
#[doc = "as an attribute"]
fn item() {}
//// four slashes
/*** three stars */
/**/ /***/
//!! two marks
