//! serialize.rs as it is. lexbor.rs too, but where `String` is one that tells its greatest length: there `node_serialize_html`, which is
//! not called, makes a `String` of what `str_from_lxb_str_t` gives.

#[allow(dead_code)]
pub mod html {
    #[cfg(not(feature = "needs"))]
    pub mod lexbor;
    #[cfg(feature = "needs")]
    pub mod lexbor {
        use crate::third_party::lexbor::*;

        pub unsafe fn str_from_lxb_char_t<'a>(data: *const lxb_char_t, length: usize) -> Option<&'a str> {
            (!data.is_null()).then(|| std::str::from_utf8(unsafe { std::slice::from_raw_parts(data, length) }).unwrap())
        }

        pub unsafe fn str_from_dom_node<'a>(node: *const lxb_dom_node_t) -> Option<&'a str> {
            let lexbor_str_t { data, length } = unsafe { &(*node.cast::<lxb_dom_character_data_t>()).data };
            unsafe { str_from_lxb_char_t(*data, *length) }
        }

        pub unsafe fn str_from_lxb_str_t(_: *const lexbor_str_t) -> Option<String> {
            unimplemented!()
        }
    }
    pub mod serialize;
}
