//! What serialize.rs and lexbor.rs use of lexbor, over nodes that tree.rs makes of a sheet's rows. Names are lexbor's own.
#![allow(non_camel_case_types)]

#[cfg(not(feature = "needs"))]
pub type Text = String;
#[cfg(feature = "needs")]
pub use kept::String as Text;

/// A string that keeps the greatest length that it had. Names that a glob imports come before those of the prelude.
pub mod kept {
    use std::ops::Deref;

    #[derive(Clone, Default)]
    pub struct String {
        text: std::string::String,
        pub longest: usize,
    }

    impl String {
        pub fn new() -> String {
            String::default()
        }
        fn kept(&mut self) {
            self.longest = self.longest.max(self.text.len());
        }
        pub fn push(&mut self, c: char) {
            self.text.push(c);
            self.kept();
        }
        pub fn push_str(&mut self, s: &str) {
            self.text.push_str(s);
            self.kept();
        }
        pub fn truncate(&mut self, length: usize) {
            self.text.truncate(length);
        }
        pub fn as_str(&self) -> &str {
            &self.text
        }
    }

    impl Deref for String {
        type Target = str;
        fn deref(&self) -> &str {
            &self.text
        }
    }

    impl FromIterator<char> for String {
        fn from_iter<I: IntoIterator<Item = char>>(chars: I) -> String {
            let mut made = String { text: chars.into_iter().collect(), longest: 0 };
            made.kept();
            made
        }
    }
}

pub mod lexbor {
    #[cfg(feature = "needs")]
    pub use super::kept::String;
    use std::ffi::c_void;

    pub type lxb_char_t = u8;

    #[repr(C)]
    pub struct lexbor_str_t {
        pub data: *mut lxb_char_t,
        pub length: usize,
    }

    #[repr(C)]
    pub struct lxb_dom_document_t {
        pub text: *mut c_void,
    }

    #[repr(C)]
    pub struct lxb_dom_node_t {
        pub local_name: usize,
        pub owner_document: *mut lxb_dom_document_t,
        pub next: *mut lxb_dom_node_t,
        pub parent: *mut lxb_dom_node_t,
        pub first_child: *mut lxb_dom_node_t,
        pub type_: lxb_dom_node_type_t::Type,
    }

    #[repr(C)]
    pub struct lxb_dom_character_data_t {
        pub node: lxb_dom_node_t,
        pub data: lexbor_str_t,
    }

    pub mod lexbor_action_t {
        pub type Type = u32;
        pub const LEXBOR_ACTION_OK: Type = 0;
        pub const LEXBOR_ACTION_STOP: Type = 1;
        pub const LEXBOR_ACTION_NEXT: Type = 2;
    }

    pub mod lxb_dom_node_type_t {
        pub type Type = u32;
        pub const LXB_DOM_NODE_TYPE_ELEMENT: Type = 1;
        pub const LXB_DOM_NODE_TYPE_TEXT: Type = 3;
        pub const LXB_DOM_NODE_TYPE_COMMENT: Type = 8;
    }

    pub mod lxb_tag_id_enum_t {
        pub type Type = u32;

        /// The constants in their order from 0, and a list of them.
        macro_rules! tags {
            ($($name:ident)*) => {
                #[allow(non_camel_case_types)]
                enum Order { $($name,)* LAST }
                $(pub const $name: Type = Order::$name as Type;)*
                /// From here on, names that lexbor does not know.
                pub const LXB_TAG__LAST_ENTRY: Type = Order::LAST as Type;
                pub const NAMED: &[(&str, Type)] = &[$((stringify!($name), $name)),*];
            };
        }

        tags! {
            LXB_TAG__UNDEF LXB_TAG__END_OF_FILE LXB_TAG__TEXT LXB_TAG__DOCUMENT LXB_TAG__EM_COMMENT LXB_TAG__EM_DOCTYPE
            LXB_TAG_A LXB_TAG_ABBR LXB_TAG_ADDRESS LXB_TAG_AREA LXB_TAG_ARTICLE LXB_TAG_ASIDE LXB_TAG_AUDIO LXB_TAG_B LXB_TAG_BLOCKQUOTE
            LXB_TAG_BODY LXB_TAG_BR LXB_TAG_BUTTON LXB_TAG_CANVAS LXB_TAG_CAPTION LXB_TAG_CENTER LXB_TAG_CODE LXB_TAG_DD LXB_TAG_DETAILS
            LXB_TAG_DIV LXB_TAG_DL LXB_TAG_DT LXB_TAG_EM LXB_TAG_FIELDSET LXB_TAG_FIGCAPTION LXB_TAG_FIGURE LXB_TAG_FOOTER LXB_TAG_FORM
            LXB_TAG_H1 LXB_TAG_H2 LXB_TAG_H3 LXB_TAG_H4 LXB_TAG_H5 LXB_TAG_H6 LXB_TAG_HEAD LXB_TAG_HEADER LXB_TAG_HGROUP LXB_TAG_HR
            LXB_TAG_HTML LXB_TAG_I LXB_TAG_IFRAME LXB_TAG_IMG LXB_TAG_INPUT LXB_TAG_LI LXB_TAG_LISTING LXB_TAG_MAIN LXB_TAG_NAV
            LXB_TAG_NOSCRIPT LXB_TAG_OL LXB_TAG_OPTION LXB_TAG_P LXB_TAG_PRE LXB_TAG_SCRIPT LXB_TAG_SECTION LXB_TAG_SELECT LXB_TAG_SPAN
            LXB_TAG_STYLE LXB_TAG_SUMMARY LXB_TAG_SVG LXB_TAG_TABLE LXB_TAG_TBODY LXB_TAG_TD LXB_TAG_TEMPLATE LXB_TAG_TEXTAREA
            LXB_TAG_TFOOT LXB_TAG_TH LXB_TAG_THEAD LXB_TAG_TITLE LXB_TAG_TR LXB_TAG_UL LXB_TAG_VIDEO
        }
    }

    // ---- functions

    const HEAD: usize = size_of::<usize>();

    fn layout(length: usize) -> std::alloc::Layout {
        std::alloc::Layout::from_size_align(HEAD + length, align_of::<usize>()).unwrap()
    }

    /// The text below a node, as it stands, with its length before it; comments have none.
    pub unsafe fn lxb_dom_node_text_content(node: *mut lxb_dom_node_t, length: *mut usize) -> *mut lxb_char_t {
        unsafe {
            *length = 0;
            each_text(node, &mut |s| *length += s.length);
            let made = std::alloc::alloc(layout(*length));
            made.cast::<usize>().write(*length);
            let mut to = made.add(HEAD);
            each_text(node, &mut |s| {
                std::ptr::copy_nonoverlapping(s.data, to, s.length);
                to = to.add(s.length);
            });
            made.add(HEAD)
        }
    }

    unsafe fn each_text(root: *mut lxb_dom_node_t, of: &mut dyn FnMut(&lexbor_str_t)) {
        unsafe {
            let mut node = (*root).first_child;
            while !node.is_null() {
                if (*node).type_ == lxb_dom_node_type_t::LXB_DOM_NODE_TYPE_TEXT {
                    of(&(*node.cast::<lxb_dom_character_data_t>()).data);
                }
                if !(*node).first_child.is_null() {
                    node = (*node).first_child;
                    continue;
                }
                while node != root && (*node).next.is_null() {
                    node = (*node).parent;
                }
                if node == root {
                    return;
                }
                node = (*node).next;
            }
        }
    }

    pub unsafe fn lxb_dom_document_destroy_text_noi(_: *mut lxb_dom_document_t, text: *mut lxb_char_t) -> *mut c_void {
        unsafe {
            let made = text.sub(HEAD);
            std::alloc::dealloc(made, layout(made.cast::<usize>().read()));
        }
        std::ptr::null_mut()
    }

    // what `node_serialize_html` names, which is not called here

    pub unsafe fn lexbor_str_create() -> *mut lexbor_str_t {
        unimplemented!()
    }

    pub unsafe fn lxb_html_serialize_tree_str(_: *mut lxb_dom_node_t, _: *mut lexbor_str_t) -> u32 {
        unimplemented!()
    }

    pub unsafe fn lexbor_str_destroy(_: *mut lexbor_str_t, _: *mut c_void, _: bool) -> *mut lexbor_str_t {
        unimplemented!()
    }
}
