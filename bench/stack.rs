//! How much of the stack a call uses: it runs on a painted stack, and the paint that is left tells.

use std::ffi::c_void;

const SIZE: usize = 8 << 20;
const PAINT: u8 = 0xC7;
/// Room for the system's attributes of a thread.
type Attributes = [u64; 16];
type Start = extern "C" fn(*mut c_void) -> *mut c_void;

extern "C" {
    fn pthread_attr_init(attributes: *mut Attributes) -> i32;
    fn pthread_attr_setstack(attributes: *mut Attributes, start: *mut u8, size: usize) -> i32;
    fn pthread_create(
        thread: *mut usize,
        attributes: *const Attributes,
        start: Start,
        argument: *mut c_void,
    ) -> i32;
    fn pthread_join(thread: usize, result: *mut *mut c_void) -> i32;
}

extern "C" fn start(call: *mut c_void) -> *mut c_void {
    // `touched` passes a reference to a call that it waits for.
    unsafe { (*call.cast::<&mut dyn FnMut()>())() };
    std::ptr::null_mut()
}

/// Bytes of a new thread's stack that are touched when it runs the call.
fn touched(mut call: &mut dyn FnMut()) -> usize {
    let mut memory = vec![PAINT; SIZE + 4096];
    let skip = memory.as_ptr().align_offset(4096);
    let stack = &mut memory[skip..skip + SIZE];
    let mut attributes: Attributes = [0; 16];
    let mut thread = 0;
    // The stack and the call outlive the thread, which is joined here.
    unsafe {
        assert_eq!(pthread_attr_init(&mut attributes), 0);
        assert_eq!(pthread_attr_setstack(&mut attributes, stack.as_mut_ptr(), SIZE), 0);
        let argument = std::ptr::addr_of_mut!(call).cast();
        assert_eq!(pthread_create(&mut thread, &attributes, start, argument), 0);
        assert_eq!(pthread_join(thread, std::ptr::null_mut()), 0);
    }
    let left = stack.iter().position(|&byte| byte != PAINT).expect("a thread uses its stack");
    SIZE - left
}

/// Bytes of stack that the call uses beyond those of a thread that does nothing.
pub fn used(call: &mut dyn FnMut()) -> usize {
    touched(call).saturating_sub(touched(&mut || {}))
}
