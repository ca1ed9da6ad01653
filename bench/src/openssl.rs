//! OpenSSL's authenticated ciphers, from libcrypto as it is installed; it is looked for at run time, so nothing asks for it to build.

use std::ffi::{CStr, c_char, c_int, c_void};

type Ctx = *mut c_void;

unsafe extern "C" {
    fn dlopen(name: *const c_char, flags: c_int) -> *mut c_void;
    fn dlsym(handle: *mut c_void, name: *const c_char) -> *mut c_void;
}

type NewCtx = unsafe extern "C" fn() -> Ctx;
type FreeCtx = unsafe extern "C" fn(Ctx);
type GetCipher = unsafe extern "C" fn() -> *const c_void;
type Init = unsafe extern "C" fn(Ctx, *const c_void, *mut c_void, *const u8, *const u8) -> c_int;
type Update = unsafe extern "C" fn(Ctx, *mut u8, *mut c_int, *const u8, c_int) -> c_int;
type Final = unsafe extern "C" fn(Ctx, *mut u8, *mut c_int) -> c_int;
type Ctrl = unsafe extern "C" fn(Ctx, c_int, c_int, *mut c_void) -> c_int;

const GET_TAG: c_int = 0x10;

#[derive(Clone, Copy)]
pub enum Aead {
    Ocb,
    Gcm,
}

pub struct OpenSsl {
    new: NewCtx,
    free: FreeCtx,
    ocb: GetCipher,
    gcm: GetCipher,
    init: Init,
    update: Update,
    finish: Final,
    ctrl: Ctrl,
}

/// A context with its cipher, used again for every message.
pub struct Context<'a> {
    lib: &'a OpenSsl,
    ctx: Ctx,
}

impl OpenSsl {
    pub fn load() -> Option<OpenSsl> {
        // SAFETY: the names end with a zero byte, and each symbol is that of libcrypto's function of the type it is taken at.
        unsafe {
            let handle = [c"libcrypto.so.3", c"libcrypto.so"].iter().map(|name| dlopen(name.as_ptr(), 2)).find(|h| !h.is_null())?;
            let symbol = |name: &CStr| {
                let found = dlsym(handle, name.as_ptr());
                (!found.is_null()).then_some(found)
            };
            use std::mem::transmute;
            Some(OpenSsl {
                new: transmute::<*mut c_void, NewCtx>(symbol(c"EVP_CIPHER_CTX_new")?),
                free: transmute::<*mut c_void, FreeCtx>(symbol(c"EVP_CIPHER_CTX_free")?),
                ocb: transmute::<*mut c_void, GetCipher>(symbol(c"EVP_aes_128_ocb")?),
                gcm: transmute::<*mut c_void, GetCipher>(symbol(c"EVP_aes_128_gcm")?),
                init: transmute::<*mut c_void, Init>(symbol(c"EVP_EncryptInit_ex")?),
                update: transmute::<*mut c_void, Update>(symbol(c"EVP_EncryptUpdate")?),
                finish: transmute::<*mut c_void, Final>(symbol(c"EVP_EncryptFinal_ex")?),
                ctrl: transmute::<*mut c_void, Ctrl>(symbol(c"EVP_CIPHER_CTX_ctrl")?),
            })
        }
    }

    pub fn context(&self, aead: Aead) -> Context<'_> {
        // SAFETY: these take nothing that could be wrong; a failed call gives null, which is tested.
        let (ctx, cipher) = unsafe {
            let get = match aead {
                Aead::Ocb => self.ocb,
                Aead::Gcm => self.gcm,
            };
            ((self.new)(), get())
        };
        assert!(!ctx.is_null() && !cipher.is_null(), "OpenSSL has no such cipher");
        // SAFETY: the context is new; the cipher is chosen once, since looking it up is slow.
        let chosen = unsafe { (self.init)(ctx, cipher, std::ptr::null_mut(), std::ptr::null(), std::ptr::null()) };
        assert_eq!(chosen, 1);
        Context { lib: self, ctx }
    }
}

impl Context<'_> {
    /// Seals one message under a key and a nonce of 12 bytes, and gets the tag.
    pub fn seal(&mut self, key: &[u8], nonce: &[u8], header: &[u8], message: &[u8], out: &mut [u8], tag: &mut [u8; 16]) {
        assert!(key.len() == 16 && nonce.len() == 12 && out.len() == message.len());
        let mut written = 0;
        // SAFETY: the context lives, key and nonce have the lengths that the ciphers ask for, and the output has the message's length.
        let all = unsafe {
            [
                (self.lib.init)(self.ctx, std::ptr::null(), std::ptr::null_mut(), key.as_ptr(), nonce.as_ptr()),
                (self.lib.update)(self.ctx, std::ptr::null_mut(), &mut written, header.as_ptr(), header.len() as c_int),
                (self.lib.update)(self.ctx, out.as_mut_ptr(), &mut written, message.as_ptr(), message.len() as c_int),
                (self.lib.finish)(self.ctx, out.as_mut_ptr().wrapping_add(written as usize), &mut written),
                (self.lib.ctrl)(self.ctx, GET_TAG, 16, tag.as_mut_ptr().cast()),
            ]
        };
        assert_eq!(all, [1; 5], "OpenSSL refuses");
    }
}

impl Drop for Context<'_> {
    fn drop(&mut self) {
        // SAFETY: made by `context`, and freed once.
        unsafe { (self.lib.free)(self.ctx) }
    }
}
