//! Which tree of a file is meant.

use tyvarmos::{Bucket, Entry, Fault, Image, Meta, Tree};

use crate::args::{Action, Options};
use crate::keys;
use crate::metas::Metas;

const ROOT_AT: u64 = 56;
const FREELIST_AT: u64 = 80;

/// The numbers of a tree, from a meta page or from the command line, and the buckets gone down to it.
#[derive(Clone)]
pub struct Meant {
    pub tree: Tree,
    /// The meta page that some of the numbers are taken from.
    pub meta: Option<Meta>,
    /// The names of the buckets that lead to it, none for the main tree.
    pub names: Vec<Vec<u8>>,
    /// The bucket's own numbers, and where in the file they stand.
    pub bucket: Option<(u64, Bucket)>,
    root_given: bool,
    freelist_given: bool,
}

impl Meant {
    /// The main tree that the options name, and the meta page where they leave something out.
    pub fn main(options: &Options, metas: &Metas) -> Result<Meant, Fault> {
        let numbers = options.numbers;
        let unread = (options.action == Action::Get).then_some(0);
        let given = (numbers.page_size, numbers.page_count, numbers.root, numbers.freelist.or(unread));
        let (root_given, freelist_given) = (numbers.root.is_some(), numbers.freelist.is_some());
        let (tree, meta) = match given {
            (Some(page_size), Some(page_count), Some(root_page), Some(freelist_page)) => {
                (Tree { page_size, page_count, root_page, freelist_page }, None)
            }
            _ => {
                let meta = metas.chosen(options.meta)?;
                let tree = Tree {
                    page_size: meta.page_size,
                    page_count: numbers.page_count.unwrap_or(meta.page_count),
                    root_page: numbers.root.unwrap_or(meta.root_page),
                    freelist_page: numbers.freelist.unwrap_or(meta.freelist_page),
                };
                (tree, Some(meta))
            }
        };
        Ok(Meant { tree, meta, names: Vec::new(), bucket: None, root_given, freelist_given })
    }

    /// The image of this tree in the file's bytes.
    pub fn image<'a>(&self, bytes: &'a [u8]) -> Image<'a> {
        Image::new(bytes, self.tree)
    }

    /// The tree of one of its buckets, whose entry has this name.
    pub fn within(&self, name: &[u8], entry: &Entry) -> Option<Meant> {
        let bucket = entry.bucket()?;
        let tree = self.tree.with_root_page(bucket.root_page);
        let names = self.names.iter().cloned().chain([name.to_vec()]).collect();
        Some(Meant { tree, names, bucket: Some((entry.place as u64, bucket)), ..self.clone() })
    }

    /// What the tree is called.
    pub fn name(&self) -> String {
        let names: Vec<String> = self.names.iter().map(|name| keys::shown(name)).collect();
        if names.is_empty() {
            "main tree".to_string()
        } else {
            format!("bucket {}", names.join(", "))
        }
    }

    /// Where in the file the root page's number stands, unless the command line has it.
    pub fn root_byte(&self) -> Option<u64> {
        match &self.bucket {
            Some((place, _)) => Some(*place),
            None => self.meta_byte(ROOT_AT, self.root_given),
        }
    }

    /// Where in the file the freelist page's number stands, unless the command line has it.
    pub fn freelist_byte(&self) -> Option<u64> {
        self.meta_byte(FREELIST_AT, self.freelist_given)
    }

    fn meta_byte(&self, at: u64, given: bool) -> Option<u64> {
        let meta = self.meta.filter(|_| !given)?;
        Some(meta.meta_page * meta.page_size + at)
    }
}
