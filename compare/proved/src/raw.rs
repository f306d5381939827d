//! The C functions. A slice passes as pointer and length; the answer buffer comes last.

type Bytes = *const u8;
type BytesMut = *mut u8;
type Words = *const u64;
type WordsMut = *mut u64;

#[rustfmt::skip]
extern "C" {
    pub fn tyvarmos_lookup(
        image: Bytes, image_len: usize, p: u64, n: u64, root: u64, key: Bytes, key_len: usize,
        answer: BytesMut, answer_len: usize,
    ) -> u64;
    pub fn tyvarmos_quick(
        image: Bytes, image_len: usize, p: u64, n: u64, root: u64, key: Bytes, key_len: usize,
        answer: BytesMut, answer_len: usize,
    ) -> u64;
    pub fn tyvarmos_judge(
        image: Bytes, image_len: usize, p: u64, n: u64, root: u64, freelist: u64,
        answer: BytesMut, answer_len: usize,
    ) -> u64;

    pub fn tyvarmos_meta(image: Bytes, image_len: usize, p: u64, answer: BytesMut, answer_len: usize) -> u64;

    pub fn tyvarmos_index(
        block: Bytes, block_len: usize, p: u64, key: Bytes, key_len: usize, answer: BytesMut, answer_len: usize,
    ) -> u64;
    pub fn tyvarmos_index_page(
        block: Bytes, block_len: usize, p: u64, index: u64, answer: BytesMut, answer_len: usize,
    ) -> u64;
    pub fn tyvarmos_entry(
        block: Bytes, block_len: usize, p: u64, index: u64, answer: BytesMut, answer_len: usize,
    ) -> u64;
    pub fn tyvarmos_size(block: Bytes, block_len: usize, p: u64, answer: BytesMut, answer_len: usize) -> u64;

    pub fn tyvarmos_new_leaf(
        p: u64, id: u64, out: BytesMut, out_len: usize, answer: BytesMut, answer_len: usize,
    ) -> u64;
    pub fn tyvarmos_new_branch(
        p: u64, id: u64, key: Bytes, key_len: usize, child: u64, out: BytesMut, out_len: usize,
        answer: BytesMut, answer_len: usize,
    ) -> u64;
    pub fn tyvarmos_insert(
        block: Bytes, block_len: usize, p: u64, key: Bytes, key_len: usize, kind: u64,
        value: Bytes, value_len: usize, out: BytesMut, out_len: usize, answer: BytesMut, answer_len: usize,
    ) -> u64;
    pub fn tyvarmos_delete(
        block: Bytes, block_len: usize, p: u64, index: u64, out: BytesMut, out_len: usize,
        answer: BytesMut, answer_len: usize,
    ) -> u64;
    pub fn tyvarmos_insert_branch(
        block: Bytes, block_len: usize, p: u64, has_original: u64, original: Bytes, original_len: usize,
        key: Bytes, key_len: usize, child: u64, out: BytesMut, out_len: usize,
        answer: BytesMut, answer_len: usize,
    ) -> u64;
    pub fn tyvarmos_split(
        block: Bytes, block_len: usize, p: u64, cuts: WordsMut, cuts_len: usize,
        answer: BytesMut, answer_len: usize,
    ) -> u64;
    pub fn tyvarmos_split_write(
        block: Bytes, block_len: usize, p: u64, n: u64, ids: Words, ids_len: usize,
        out: BytesMut, out_len: usize, answer: BytesMut, answer_len: usize,
    ) -> u64;

    pub fn tyvarmos_free_new(table: WordsMut, table_len: usize, answer: BytesMut, answer_len: usize) -> u64;
    pub fn tyvarmos_free_init(
        table: WordsMut, table_len: usize, n: u64, ids: Words, ids_len: usize,
        answer: BytesMut, answer_len: usize,
    ) -> u64;
    pub fn tyvarmos_free_pages(
        table: WordsMut, table_len: usize, n: u64, first: u64, count: u64, t: u64,
        answer: BytesMut, answer_len: usize,
    ) -> u64;
    pub fn tyvarmos_release(
        table: WordsMut, table_len: usize, n: u64, t: u64, answer: BytesMut, answer_len: usize,
    ) -> u64;
    pub fn tyvarmos_allocate(
        table: WordsMut, table_len: usize, n: u64, p: u64, bytes: u64, answer: BytesMut, answer_len: usize,
    ) -> u64;
    pub fn tyvarmos_free_list(
        table: Words, table_len: usize, n: u64, ids: WordsMut, ids_len: usize,
        answer: BytesMut, answer_len: usize,
    ) -> u64;
    pub fn tyvarmos_free_size(table: Words, table_len: usize, n: u64, answer: BytesMut, answer_len: usize) -> u64;

    pub fn tyvarmos_meta_read(page: Bytes, page_len: usize, answer: BytesMut, answer_len: usize) -> u64;
    pub fn tyvarmos_meta_write(
        page: BytesMut, page_len: usize, meta_page: u32, magic: u32, version: u32, pagesize: u64,
        root_page: u64, next_int: u64, num_pages: u64, freelist_page: u64, tx_id: u64,
        answer: BytesMut, answer_len: usize,
    ) -> u64;
    pub fn tyvarmos_fnv1a(bytes: Bytes, bytes_len: usize, answer: BytesMut, answer_len: usize) -> u64;
}
