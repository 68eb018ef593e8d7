// The two files as they are; not all of what they offer is called here.
#[allow(dead_code)]
pub mod filters;
#[allow(dead_code)]
pub mod html2text;
