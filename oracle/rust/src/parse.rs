//! What html2text.rs and filters.rs use of the crate's DOM, over the rows of a sheet.

pub mod html {
    pub mod dom {
        pub mod node {
            use super::super::selector::CssParserError;
            use super::traits::NodeType;
            use crate::sheet::{COMMENT, ELEMENT, Page, Row, TEXT};
            use std::rc::Rc;

            #[derive(Clone)]
            pub struct Node {
                pub(crate) page: Rc<Page>,
                pub(crate) row: usize,
            }

            // A pass of the walk's loop either descends, after one `first_child` that answers a row, or tests `node == root`
            // once. Nothing else in the two files does either.
            impl PartialEq for Node {
                fn eq(&self, other: &Node) -> bool {
                    self.page.passes.set(self.page.passes.get() + 1);
                    self.row == other.row
                }
            }

            impl Node {
                fn at(&self) -> &Row {
                    &self.page.rows[self.row]
                }
                fn other(&self, row: Option<usize>) -> Option<Node> {
                    row.map(|row| Node { page: self.page.clone(), row })
                }
                pub fn identity(&self) -> Option<(usize, usize)> {
                    Some((0, self.row))
                }
                pub fn node_type(&self) -> Option<NodeType> {
                    match self.at().kind {
                        ELEMENT => Some(NodeType::Element),
                        TEXT => Some(NodeType::Text),
                        COMMENT => Some(NodeType::Comment),
                        _ => None,
                    }
                }
                pub fn node_value(&self) -> Option<String> {
                    let row = self.at();
                    (row.kind != ELEMENT).then(|| row.value.to_string())
                }
                pub fn text_content(&self) -> Option<String> {
                    let row = self.at();
                    if row.kind != ELEMENT {
                        return Some(row.value.to_string());
                    }
                    let mut text = String::new();
                    for below in &self.page.rows[self.row + 1..row.past] {
                        if below.kind == TEXT {
                            text.push_str(&below.value);
                        }
                    }
                    Some(text)
                }
                pub fn has_child_nodes(&self) -> bool {
                    self.at().first_child.is_some()
                }
                pub fn first_child(&self) -> Option<Node> {
                    let child = self.other(self.at().first_child);
                    if child.is_some() {
                        self.page.passes.set(self.page.passes.get() + 1);
                    }
                    child
                }
                pub fn next_sibling(&self) -> Option<Node> {
                    self.other(self.at().next_sibling)
                }
                pub fn parent_node(&self) -> Option<Node> {
                    self.other(self.at().parent)
                }
                pub fn as_element(&self) -> Option<ElementRef<'_>> {
                    (self.at().kind == ELEMENT).then_some(ElementRef(self))
                }
                pub fn as_parent(&self) -> Option<ParentNodeRef<'_>> {
                    (self.at().kind == ELEMENT).then_some(ParentNodeRef(self))
                }
            }

            pub struct ElementRef<'a>(&'a Node);

            impl ElementRef<'_> {
                fn attribute(&self, name: &str) -> Option<&str> {
                    self.0.at().attributes.iter().find(|a| &*a.0 == name).map(|a| &*a.1)
                }
                pub fn local_name(&self) -> Option<String> {
                    Some(self.0.at().name.to_string())
                }
                pub fn attribute_or_default(&self, name: &str) -> String {
                    self.attribute(name).unwrap_or_default().to_owned()
                }
                pub fn has_attribute(&self, name: &str) -> bool {
                    self.attribute(name).is_some()
                }
                pub fn get_elements_by_tag_name(&self, name: &str) -> Vec<Node> {
                    let Node { page, row } = self.0;
                    (row + 1..page.rows[*row].past)
                        .filter(|&i| page.rows[i].kind == ELEMENT && &*page.rows[i].name == name)
                        .map(|row| Node { page: page.clone(), row })
                        .collect()
                }
            }

            /// What the list of selectors is asked of: the marked rows, the root's own mark included; in a page that is asked by name also
            /// the elements below the root whose name is one of the selectors.
            pub struct ParentNodeRef<'a>(&'a Node);

            impl ParentNodeRef<'_> {
                pub fn query_selector_all(&self, selectors: &str) -> Result<NodeList, CssParserError> {
                    assert!(selectors.starts_with("script,style,iframe,frame,template"), "{}", selectors);
                    assert!(selectors.bytes().all(|b| b.is_ascii_lowercase() || b == b','), "{}", selectors);
                    let Node { page, row } = self.0;
                    let names: Vec<&str> = if page.by_name { selectors.split(',').collect() } else { vec![] };
                    let is_named = |i: usize| i > *row && page.rows[i].kind == ELEMENT && names.contains(&&*page.rows[i].name);
                    let found: Vec<usize> = (*row..page.rows[*row].past).filter(|&i| page.rows[i].marked || is_named(i)).collect();
                    let nodes = found.iter().map(|&row| Node { page: page.clone(), row }).collect();
                    page.found.replace(found);
                    Ok(NodeList(nodes))
                }
            }

            /// The chosen root, in body's place; the selectors of candidates find nothing below it.
            pub struct ElementNode(pub(crate) Node);

            impl ElementNode {
                pub fn tree(&self) -> &Page {
                    &self.0.page
                }
                pub fn as_node(&self) -> Node {
                    self.0.clone()
                }
                pub fn query_selector_all(&self, selector: &str) -> Result<NodeList, CssParserError> {
                    assert!(selector.starts_with('.') || selector == "[role=main]", "{}", selector);
                    Ok(NodeList(vec![]))
                }
            }

            pub struct NodeList(Vec<Node>);

            impl NodeList {
                pub fn is_empty(&self) -> bool {
                    self.0.is_empty()
                }
                pub fn len(&self) -> usize {
                    self.0.len()
                }
                pub fn item(&self, i: usize) -> Option<ElementNode> {
                    self.0.get(i).cloned().map(ElementNode)
                }
                pub fn iter(&self) -> std::slice::Iter<'_, Node> {
                    self.0.iter()
                }
            }

            impl Page {
                /// The lock of the document: none is needed here.
                pub fn doc_ptr(&self) -> Guard {
                    Guard
                }
            }

            pub struct Guard;
        }

        pub mod traits {
            #[derive(Clone, PartialEq, Eq, Debug)]
            pub enum NodeType {
                Element = 0x01,
                Text = 0x03,
                Comment = 0x08,
            }
        }
    }

    pub mod selector {
        #[derive(Debug)]
        pub struct CssParserError;
    }

    pub mod tree {
        use super::dom::node::{ElementNode, Node};
        use crate::sheet::Page;
        use std::rc::Rc;

        pub struct HtmlTree(pub Rc<Page>);

        impl HtmlTree {
            pub fn body(&self) -> Option<ElementNode> {
                Some(ElementNode(Node { page: self.0.clone(), row: self.0.root }))
            }
        }
    }
}
