//! The C functions of the archive, each behind a function over slices. All unsafe code of the crate is here.

/// A part of the image: where it begins and how long it is; 0 and 0 where the image has no such part.
#[repr(C)]
#[derive(Clone, Copy, PartialEq, Eq)]
pub struct Part {
    pub start: u64,
    pub length: u64,
}

/// What a read answers, of an image whole, by its header or by its section. It has no `Debug`: a derived checkint says
/// something of the private bytes.
#[repr(C)]
#[derive(Clone, Copy, PartialEq, Eq)]
pub struct Image {
    pub number: u64,
    pub count: u64,
    pub at: u64,
    pub kind: u64,
    pub algorithm: u64,
    pub cipher: u64,
    pub kdf: u64,
    pub rounds: u64,
    pub checkint: u64,
    pub padding: u64,
    pub form: u64,
    pub blob: Part,
    pub point: Part,
    pub scalar: Part,
    pub comment: Part,
    pub salt: Part,
    pub ciphertext: Part,
    pub tag: Part,
    pub section: u64,
    pub bits: u64,
    pub modulus: Part,
    pub exponent: Part,
    pub d: Part,
    pub iqmp: Part,
    pub p: Part,
    pub q: Part,
    pub keys: u64,
}

/// One key of an image. It has no `Debug` either.
#[repr(C)]
#[derive(Clone, Copy, PartialEq, Eq)]
pub struct Key {
    pub number: u64,
    pub count: u64,
    pub at: u64,
    pub algorithm: u64,
    pub bits: u64,
    pub blob: Part,
    pub point: Part,
    pub scalar: Part,
    pub comment: Part,
    pub modulus: Part,
    pub exponent: Part,
    pub d: Part,
    pub iqmp: Part,
    pub p: Part,
    pub q: Part,
}

/// A setting; `used` is 0 where it is refused, and of a store's unused place.
#[repr(C)]
#[derive(Clone, Copy, Debug, PartialEq, Eq)]
pub struct Setting {
    pub number: u64,
    pub used: u64,
    pub kind: u64,
    pub milliseconds: u64,
}

/// What a writer, an edit, an export or an import answers.
#[repr(C)]
#[derive(Clone, Copy, Debug, PartialEq, Eq)]
pub struct Reply {
    pub number: u64,
    pub count: u64,
    pub at: u64,
    pub length: u64,
}

extern "C" {
    fn saltorchard_interface_10() -> u64;
    fn saltorchard_read(image: *const u8, image_len: usize) -> Image;
    fn saltorchard_read_header(image: *const u8, image_len: usize) -> Image;
    fn saltorchard_read_section(image: *const u8, image_len: usize, header: Image) -> Image;
    fn saltorchard_read_key(image: *const u8, image_len: usize, k: u64) -> Key;
    fn saltorchard_write_plain(
        algorithm: u8,
        public: *const u8,
        public_len: usize,
        private: *const u8,
        private_len: usize,
        derive: u8,
        checkint: u32,
        comment: *const u8,
        comment_len: usize,
        out: *mut u8,
        out_len: usize,
    ) -> Reply;
    fn saltorchard_write_rsa(
        n: *const u8,
        n_len: usize,
        e: *const u8,
        e_len: usize,
        d: *const u8,
        d_len: usize,
        iqmp: *const u8,
        iqmp_len: usize,
        p: *const u8,
        p_len: usize,
        q: *const u8,
        q_len: usize,
        derive: u8,
        checkint: u32,
        comment: *const u8,
        comment_len: usize,
        out: *mut u8,
        out_len: usize,
    ) -> Reply;
    fn saltorchard_write_keys(
        keys: *const u64,
        keys_len: usize,
        bytes: *const u8,
        bytes_len: usize,
        derive: u8,
        checkint: u32,
        out: *mut u8,
        out_len: usize,
    ) -> Reply;
    fn saltorchard_write_encrypted(
        cipher: u8,
        kdf: u8,
        salt: *const u8,
        salt_len: usize,
        rounds: u32,
        blob: *const u8,
        blob_len: usize,
        ciphertext: *const u8,
        ciphertext_len: usize,
        tag: *const u8,
        tag_len: usize,
        out: *mut u8,
        out_len: usize,
    ) -> Reply;
    fn saltorchard_rewrite(image: *const u8, image_len: usize, out: *mut u8, out_len: usize) -> Reply;
    fn saltorchard_change_comment(
        buffer: *mut u8,
        buffer_len: usize,
        n: usize,
        comment: *const u8,
        comment_len: usize,
    ) -> Reply;
    fn saltorchard_change_comment_of(
        buffer: *mut u8,
        buffer_len: usize,
        n: usize,
        k: u64,
        comment: *const u8,
        comment_len: usize,
    ) -> Reply;
    fn saltorchard_add_key(
        buffer: *mut u8,
        buffer_len: usize,
        n: usize,
        algorithm: u8,
        public: *const u8,
        public_len: usize,
        private: *const u8,
        private_len: usize,
        comment: *const u8,
        comment_len: usize,
    ) -> Reply;
    fn saltorchard_add_rsa(
        buffer: *mut u8,
        buffer_len: usize,
        n: usize,
        m: *const u8,
        m_len: usize,
        e: *const u8,
        e_len: usize,
        d: *const u8,
        d_len: usize,
        iqmp: *const u8,
        iqmp_len: usize,
        p: *const u8,
        p_len: usize,
        q: *const u8,
        q_len: usize,
        comment: *const u8,
        comment_len: usize,
    ) -> Reply;
    fn saltorchard_remove_key(buffer: *mut u8, buffer_len: usize, n: usize, k: u64) -> Reply;
    fn saltorchard_export(image: *const u8, image_len: usize, out: *mut u8, out_len: usize) -> Reply;
    fn saltorchard_import(text: *const u8, text_len: usize, out: *mut u8, out_len: usize) -> Reply;
    fn saltorchard_read_setting(record: *const u8, record_len: usize) -> Setting;
    fn saltorchard_write_setting(version: u8, kind: u8, milliseconds: u64, record: *mut u8, record_len: usize)
        -> Reply;
    fn saltorchard_store_get(store: *const u8, store_len: usize, device: u64) -> Setting;
    fn saltorchard_store_put(
        store: *mut u8,
        store_len: usize,
        device: u64,
        version: u8,
        kind: u8,
        milliseconds: u64,
    ) -> Reply;
    fn saltorchard_store_move(store: *mut u8, store_len: usize) -> Reply;
}

/// What the archive has under this name only if its structs and functions are the ones declared here.
static INTERFACE: unsafe extern "C" fn() -> u64 = saltorchard_interface_10;

/// Before each call: refers to the archive's number, so that with an archive of another number nothing links. The pointer is read,
/// and not only there, since older compilers let the linker drop a static that is no more than `#[used]`.
#[inline(always)]
fn links() {
    // SAFETY: the reference is to a static, of a type that may be copied.
    unsafe { core::ptr::read_volatile(&INTERFACE) };
}

/// `saltorchard_read`.
pub fn read(image: &[u8]) -> Image {
    links();
    // SAFETY: the pointer and the length are one live slice's, and only that is read.
    unsafe { saltorchard_read(image.as_ptr(), image.len()) }
}

/// `saltorchard_read_header`.
pub fn read_header(image: &[u8]) -> Image {
    links();
    // SAFETY: the pointer and the length are one live slice's, and only that is read.
    unsafe { saltorchard_read_header(image.as_ptr(), image.len()) }
}

/// `saltorchard_read_section`; any `header` is fine, one that isn't the image's is refused.
pub fn read_section(image: &[u8], header: Image) -> Image {
    links();
    // SAFETY: the pointer and the length are one live slice's, and only that is read; the header is handed over as a copy.
    unsafe { saltorchard_read_section(image.as_ptr(), image.len(), header) }
}

/// `saltorchard_read_key`; any `k` is fine, one that the image doesn't have is refused.
pub fn read_key(image: &[u8], k: u64) -> Key {
    links();
    // SAFETY: the pointer and the length are one live slice's, and only that is read.
    unsafe { saltorchard_read_key(image.as_ptr(), image.len(), k) }
}

/// `saltorchard_write_plain`; `derive` 0 takes the given checkint.
pub fn write_plain(
    algorithm: u8,
    public: &[u8],
    private: &[u8],
    derive: u8,
    checkint: u32,
    comment: &[u8],
    out: &mut [u8],
) -> Reply {
    links();
    // SAFETY: each pointer and length are one live slice's; `out` is lent alone, so it overlaps none of the others.
    unsafe {
        saltorchard_write_plain(
            algorithm,
            public.as_ptr(),
            public.len(),
            private.as_ptr(),
            private.len(),
            derive,
            checkint,
            comment.as_ptr(),
            comment.len(),
            out.as_mut_ptr(),
            out.len(),
        )
    }
}

/// `saltorchard_write_rsa`; the numbers are n, e, d, iqmp, p and q, and `derive` 0 takes the given checkint.
pub fn write_rsa(numbers: [&[u8]; 6], derive: u8, checkint: u32, comment: &[u8], out: &mut [u8]) -> Reply {
    links();
    let [n, e, d, iqmp, p, q] = numbers;
    // SAFETY: each pointer and length are one live slice's; `out` is lent alone, so it overlaps none of the others.
    unsafe {
        saltorchard_write_rsa(
            n.as_ptr(),
            n.len(),
            e.as_ptr(),
            e.len(),
            d.as_ptr(),
            d.len(),
            iqmp.as_ptr(),
            iqmp.len(),
            p.as_ptr(),
            p.len(),
            q.as_ptr(),
            q.len(),
            derive,
            checkint,
            comment.as_ptr(),
            comment.len(),
            out.as_mut_ptr(),
            out.len(),
        )
    }
}

/// `saltorchard_write_keys`; any table is fine, and `derive` 0 takes the given checkint.
pub fn write_keys(keys: &[u64], bytes: &[u8], derive: u8, checkint: u32, out: &mut [u8]) -> Reply {
    links();
    // SAFETY: each pointer and length are one live slice's, the table's counting its numbers; `out` is lent alone, so it overlaps
    // none of the others, and no part is read that isn't within `bytes`.
    unsafe {
        saltorchard_write_keys(
            keys.as_ptr(),
            keys.len(),
            bytes.as_ptr(),
            bytes.len(),
            derive,
            checkint,
            out.as_mut_ptr(),
            out.len(),
        )
    }
}

/// `saltorchard_write_encrypted`.
#[allow(clippy::too_many_arguments)]
pub fn write_encrypted(
    cipher: u8,
    kdf: u8,
    salt: &[u8],
    rounds: u32,
    blob: &[u8],
    ciphertext: &[u8],
    tag: &[u8],
    out: &mut [u8],
) -> Reply {
    links();
    // SAFETY: each pointer and length are one live slice's; `out` is lent alone, so it overlaps none of the others.
    unsafe {
        saltorchard_write_encrypted(
            cipher,
            kdf,
            salt.as_ptr(),
            salt.len(),
            rounds,
            blob.as_ptr(),
            blob.len(),
            ciphertext.as_ptr(),
            ciphertext.len(),
            tag.as_ptr(),
            tag.len(),
            out.as_mut_ptr(),
            out.len(),
        )
    }
}

/// `saltorchard_rewrite`.
pub fn rewrite(image: &[u8], out: &mut [u8]) -> Reply {
    links();
    // SAFETY: each pointer and length are one live slice's; `out` is lent alone, so it doesn't overlap the image.
    unsafe { saltorchard_rewrite(image.as_ptr(), image.len(), out.as_mut_ptr(), out.len()) }
}

/// `saltorchard_change_comment`; any `n` is fine, one above the buffer's length is refused.
pub fn change_comment(buffer: &mut [u8], n: usize, comment: &[u8]) -> Reply {
    links();
    // SAFETY: each pointer and length are one live slice's; `buffer` is lent alone, so it doesn't overlap the comment.
    unsafe { saltorchard_change_comment(buffer.as_mut_ptr(), buffer.len(), n, comment.as_ptr(), comment.len()) }
}

/// `saltorchard_change_comment_of`; any `n` and any `k` are fine.
pub fn change_comment_of(buffer: &mut [u8], n: usize, k: u64, comment: &[u8]) -> Reply {
    links();
    // SAFETY: each pointer and length are one live slice's; `buffer` is lent alone, so it doesn't overlap the comment.
    unsafe { saltorchard_change_comment_of(buffer.as_mut_ptr(), buffer.len(), n, k, comment.as_ptr(), comment.len()) }
}

/// `saltorchard_add_key`; any `n` is fine.
pub fn add_key(buffer: &mut [u8], n: usize, algorithm: u8, public: &[u8], private: &[u8], comment: &[u8]) -> Reply {
    links();
    // SAFETY: each pointer and length are one live slice's; `buffer` is lent alone, so it overlaps none of the others.
    unsafe {
        saltorchard_add_key(
            buffer.as_mut_ptr(),
            buffer.len(),
            n,
            algorithm,
            public.as_ptr(),
            public.len(),
            private.as_ptr(),
            private.len(),
            comment.as_ptr(),
            comment.len(),
        )
    }
}

/// `saltorchard_add_rsa`; the numbers are the modulus, e, d, iqmp, p and q, and any `n` is fine.
pub fn add_rsa(buffer: &mut [u8], n: usize, numbers: [&[u8]; 6], comment: &[u8]) -> Reply {
    links();
    let [m, e, d, iqmp, p, q] = numbers;
    // SAFETY: each pointer and length are one live slice's; `buffer` is lent alone, so it overlaps none of the others.
    unsafe {
        saltorchard_add_rsa(
            buffer.as_mut_ptr(),
            buffer.len(),
            n,
            m.as_ptr(),
            m.len(),
            e.as_ptr(),
            e.len(),
            d.as_ptr(),
            d.len(),
            iqmp.as_ptr(),
            iqmp.len(),
            p.as_ptr(),
            p.len(),
            q.as_ptr(),
            q.len(),
            comment.as_ptr(),
            comment.len(),
        )
    }
}

/// `saltorchard_remove_key`; any `n` and any `k` are fine.
pub fn remove_key(buffer: &mut [u8], n: usize, k: u64) -> Reply {
    links();
    // SAFETY: the pointer and the length are one live slice's, which is lent alone.
    unsafe { saltorchard_remove_key(buffer.as_mut_ptr(), buffer.len(), n, k) }
}

/// `saltorchard_export`.
pub fn export(image: &[u8], out: &mut [u8]) -> Reply {
    links();
    // SAFETY: each pointer and length are one live slice's; `out` is lent alone, so it doesn't overlap the image.
    unsafe { saltorchard_export(image.as_ptr(), image.len(), out.as_mut_ptr(), out.len()) }
}

/// `saltorchard_import`.
pub fn import(text: &[u8], out: &mut [u8]) -> Reply {
    links();
    // SAFETY: each pointer and length are one live slice's; `out` is lent alone, so it doesn't overlap the text.
    unsafe { saltorchard_import(text.as_ptr(), text.len(), out.as_mut_ptr(), out.len()) }
}

/// `saltorchard_read_setting`; any length is fine, one other than 4 is refused.
pub fn read_setting(record: &[u8]) -> Setting {
    links();
    // SAFETY: the pointer and the length are one live slice's, and only that is read.
    unsafe { saltorchard_read_setting(record.as_ptr(), record.len()) }
}

/// `saltorchard_write_setting`; any length is fine, one other than 4 is refused.
pub fn write_setting(version: u8, kind: u8, milliseconds: u64, record: &mut [u8]) -> Reply {
    links();
    // SAFETY: the pointer and the length are one live slice's, which is lent alone.
    unsafe { saltorchard_write_setting(version, kind, milliseconds, record.as_mut_ptr(), record.len()) }
}

/// `saltorchard_store_get`; any length and any device are fine.
pub fn store_get(store: &[u8], device: u64) -> Setting {
    links();
    // SAFETY: the pointer and the length are one live slice's, and only that is read.
    unsafe { saltorchard_store_get(store.as_ptr(), store.len(), device) }
}

/// `saltorchard_store_put`; any length and any device are fine.
pub fn store_put(store: &mut [u8], device: u64, version: u8, kind: u8, milliseconds: u64) -> Reply {
    links();
    // SAFETY: the pointer and the length are one live slice's, which is lent alone.
    unsafe { saltorchard_store_put(store.as_mut_ptr(), store.len(), device, version, kind, milliseconds) }
}

/// `saltorchard_store_move`; any length is fine, one other than 128 is refused.
pub fn store_move(store: &mut [u8]) -> Reply {
    links();
    // SAFETY: the pointer and the length are one live slice's, which is lent alone.
    unsafe { saltorchard_store_move(store.as_mut_ptr(), store.len()) }
}
