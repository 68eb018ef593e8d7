//! The nodes of a sheet's rows.

use crate::sheet::{COMMENT, ELEMENT, Page, TEXT};
use crate::third_party::lexbor::*;
use std::collections::HashMap;
use std::ptr::null_mut;

pub struct Tree {
    // in document order; what the pointers show does not move
    nodes: Box<[lxb_dom_character_data_t]>,
    _values: Vec<Box<str>>,
    _document: Box<lxb_dom_document_t>,
}

/// The ids of names: lexbor's constants by their own names in lower case, and a new id for each other name, byte for byte.
struct Ids(HashMap<Box<str>, usize>);

impl Ids {
    fn new() -> Ids {
        let tags = lxb_tag_id_enum_t::NAMED.iter().filter(|(name, _)| !name.starts_with("LXB_TAG__"));
        Ids(tags.map(|(name, id)| (name["LXB_TAG_".len()..].to_lowercase().into(), *id as usize)).collect())
    }
    fn of(&mut self, name: &str) -> usize {
        let next = lxb_tag_id_enum_t::LXB_TAG__LAST_ENTRY as usize + self.0.len();
        *self.0.entry(name.into()).or_insert(next)
    }
}

impl Tree {
    pub fn new(page: &Page) -> Tree {
        let mut ids = Ids::new();
        let mut document = Box::new(lxb_dom_document_t { text: null_mut() });
        let owner_document: *mut lxb_dom_document_t = &mut *document;
        let mut values = vec![];
        let made = page.rows.iter().map(|row| {
            let (local_name, type_) = match row.kind {
                ELEMENT => (ids.of(&row.name), lxb_dom_node_type_t::LXB_DOM_NODE_TYPE_ELEMENT),
                TEXT => (lxb_tag_id_enum_t::LXB_TAG__TEXT as usize, lxb_dom_node_type_t::LXB_DOM_NODE_TYPE_TEXT),
                COMMENT => (lxb_tag_id_enum_t::LXB_TAG__EM_COMMENT as usize, lxb_dom_node_type_t::LXB_DOM_NODE_TYPE_COMMENT),
                kind => panic!("kind {}", kind),
            };
            let mut data = lexbor_str_t { data: null_mut(), length: 0 };
            if row.kind != ELEMENT {
                let mut value = row.value.clone();
                data = lexbor_str_t { data: value.as_mut_ptr(), length: value.len() };
                values.push(value);
            }
            let node = lxb_dom_node_t { local_name, owner_document, next: null_mut(), parent: null_mut(), first_child: null_mut(), type_ };
            lxb_dom_character_data_t { node, data }
        });
        let mut nodes: Box<[lxb_dom_character_data_t]> = made.collect();
        let first = nodes.as_mut_ptr();
        let at = |row: Option<usize>| row.map_or(null_mut(), |i| unsafe { first.add(i).cast::<lxb_dom_node_t>() });
        for (i, row) in page.rows.iter().enumerate() {
            let node = unsafe { &mut (*first.add(i)).node };
            (node.next, node.parent, node.first_child) = (at(row.next_sibling), at(row.parent), at(row.first_child));
        }
        Tree { nodes, _values: values, _document: document }
    }
    pub fn node(&self, row: usize) -> *mut lxb_dom_node_t {
        (&raw const self.nodes[row]).cast_mut().cast()
    }
}
